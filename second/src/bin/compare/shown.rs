//! Things that are counted by name: how often each was shown, and what is said of that at the end.

#[cfg(test)]
use crate::items::{generated_items, Ask};
use crate::words::{counts_words, rare};
use second::judge::{Answer, Feed};

/// What a message shows by the answer that it got: the things' places in the list of names.
pub type Things = fn(&[u8], &Feed, u64, &Answer) -> Vec<usize>;

/// How often each of some things was shown.
pub struct Shown<const N: usize> {
    /// What is counted, in the report.
    what: &'static str,
    /// What it is called where something of it is too rare.
    matter: &'static str,
    names: [&'static str; N],
    pub counts: [usize; N],
}

impl<const N: usize> Shown<N> {
    pub fn new(what: &'static str, matter: &'static str, names: [&'static str; N]) -> Shown<N> {
        Shown { what, matter, names, counts: [0; N] }
    }

    /// Counts each of these things once, however often it is among them.
    pub fn add(&mut self, things: impl IntoIterator<Item = usize>) {
        let mut is_shown = [false; N];
        things.into_iter().for_each(|thing| is_shown[thing] = true);
        self.counts.iter_mut().zip(is_shown).for_each(|(count, is_shown)| *count += usize::from(is_shown));
    }

    /// Counts a feed by the answers that its messages got.
    pub fn add_feed(&mut self, bytes: &[u8], feed: &Feed, messages: &[u64], answers: &[Answer], things: Things) {
        self.add(messages.iter().zip(answers).flat_map(|(message, answer)| things(bytes, feed, *message, answer)));
    }

    fn named(&self) -> impl Iterator<Item = (&'static str, usize)> + '_ {
        self.names.into_iter().zip(self.counts)
    }

    pub fn rare(&self, floor: usize) -> Vec<String> {
        rare(self.matter, self.named(), floor)
    }

    pub fn words(&self) -> String {
        format!("{}: {}", self.what, counts_words(self.named()))
    }
}

/// The things that are so.
pub fn those<const N: usize>(things: [(usize, bool); N]) -> Vec<usize> {
    things.into_iter().filter(|(_, is_so)| *is_so).map(|(thing, _)| thing).collect()
}

/// Hands over the first feeds of a seed, each with the messages asked for and their answers.
#[cfg(test)]
pub fn each_generated(seed: u64, feeds: usize, mut hear: impl FnMut(&[u8], &Feed, &[u64], &[Answer])) {
    for item in (0..feeds).flat_map(|turn| generated_items(seed, turn).into_iter().take(1)) {
        let Ask::Judge(asked) = &item.ask else { panic!("the first item is a judgement") };
        let feed = Feed::new(&asked.feed);
        let answers: Vec<Answer> = asked.messages.iter().map(|message| feed.judge(*message)).collect();
        hear(&asked.feed, &feed, &asked.messages, &answers);
    }
}

/// What is counted of a feed when all its messages are judged.
#[cfg(test)]
pub fn counted<const N: usize>(mut shown: Shown<N>, feed: &str, things: Things) -> [usize; N] {
    let lines = Feed::new(feed.as_bytes());
    let messages: Vec<u64> = (1..=lines.headings().unwrap() as u64).collect();
    let answers: Vec<Answer> = messages.iter().map(|message| lines.judge(*message)).collect();
    shown.add_feed(feed.as_bytes(), &lines, &messages, &answers, things);
    shown.counts
}

#[cfg(test)]
mod tests {
    use super::*;

    #[test]
    fn a_thing_counts_once_each_time() {
        let mut shown = Shown::new("feeds with it", "it", ["one", "two", "three"]);
        shown.add([2, 0, 2, 2]);
        shown.add([2]);
        shown.add([]);
        assert_eq!(shown.counts, [1, 0, 2]);
        assert_eq!(shown.words(), "feeds with it: one 1, two 0, three 2");
    }

    #[test]
    fn what_is_rare_is_told() {
        let mut shown = Shown::new("feeds with it", "it", ["one", "two", "three"]);
        shown.counts = [99, 100, 0];
        let rare = ["it: one came only 99 times, 100 are wanted", "it: three came only 0 times, 100 are wanted"];
        assert_eq!(shown.rare(100), rare);
        assert!(shown.rare(0).is_empty());
    }
}
