//! Holds the second explainer against what is known and against request (vii)'s words, and the face against the second explainer.

use crate::blames;
use crate::tally::Tally;
use crate::words::{known_by, reason_words};
use second::bytes::Bytes;
use second::desk::FINE;
use second::face::Face;
use second::judge::{Explained, Feed};
use second::mend::Said;

/// Messages of a feed to be explained, and what must be said of each if that is known without the explainer.
pub struct Explaining {
    pub feed: Bytes,
    pub messages: Vec<u64>,
    pub known: Vec<Option<Explained>>,
    /// Whether a made line of every code is tried, which takes a judgement each.
    pub by_codes: bool,
}

/// So many offending bytes are shown.
const SHOWN: usize = 100;

/// Facts about explanations that differ.
pub fn compare_explained(asked: &Explaining, generated: bool, face: Option<&mut Face>, tally: &mut Tally) -> Result<Vec<String>, String> {
    let feed = Feed::new(&asked.feed);
    let explained: Vec<Explained> = asked.messages.iter().map(|message| feed.explain(*message)).collect();
    let told = face.map(|face| face.next_explained(explained.len())).transpose()?;
    tally.answers += explained.len();
    let mut facts = Vec::new();
    for (at, (message, explained)) in asked.messages.iter().zip(explained).enumerate() {
        if generated {
            tally.explained.add(explained.reason);
            tally.blames.add(blames::things(&asked.feed, &feed, *message, &explained));
            tally.listed.add(blames::codes(&asked.feed, &feed, *message, &explained));
        }
        let own = Said { bytes: &asked.feed, feed: &feed, message: *message, explained };
        let mut of_one = own_faults(&own, asked.by_codes);
        if let Some(known) = asked.known[at] {
            of_one.extend(other_explained(&asked.feed, known_by(generated), known, "the second program", explained));
        }
        if let Some(told) = &told {
            of_one.extend(other_explained(&asked.feed, "the second program", explained, "the product", told[at]));
        }
        if !of_one.is_empty() {
            facts.push(format!("message asked for: {message}"));
            facts.extend(of_one);
        }
    }
    Ok(facts)
}

/// Facts about what the second explainer must not say.
fn own_faults(said: &Said, by_codes: bool) -> Vec<String> {
    let fault = said.fault().map(str::to_string);
    let fault = fault.or_else(|| if by_codes { said.codes_fault() } else { None });
    let Some(fault) = fault else { return Vec::new() };
    vec![format!("the second program: {}", explained_words(said.bytes, said.explained)), fault]
}

/// Facts about two explanations of one message, with the numbers that differ.
fn other_explained(feed: &[u8], one: &str, left: Explained, other: &str, right: Explained) -> Vec<String> {
    let pairs = left.named().into_iter().zip(right.named());
    let differ: Vec<String> = pairs
        .filter(|((_, left), (_, right))| left != right)
        .map(|((name, left), (_, right))| format!("{name}: {left} by {one}, {right} by {other}"))
        .collect();
    if differ.is_empty() {
        return differ;
    }
    let words = [format!("{one}: {}", explained_words(feed, left)), format!("{other}: {}", explained_words(feed, right))];
    words.into_iter().chain(differ).collect()
}

/// What was said, in words.
fn explained_words(feed: &[u8], explained: Explained) -> String {
    let Explained { reason, rows, line, start, length, .. } = explained;
    if explained == Explained::accepted(rows as usize) {
        return format!("accepted with {rows} rows");
    }
    let end = (start as usize).saturating_add((length as usize).min(SHOWN));
    let bytes =
        feed.get(start as usize..end).map_or("that are not in the feed".to_string(), |bytes| format!("\"{}\"", bytes.escape_ascii()));
    let codes = explained.listed();
    let what = if reason == FINE { "accepted".to_string() } else { format!("refused {}", reason_words(reason)) };
    format!("{what} at line {line} for {length} bytes at {start}, {bytes}, codes {codes:?}")
}

#[cfg(test)]
mod tests {
    use super::*;
    use second::judge::explain;

    const FEED: &[u8] = b"CCSDS_OPM_VERS=1.0\n ORIGINATOR=\n";

    fn asked(known: Option<Explained>) -> Explaining {
        Explaining { feed: FEED.into(), messages: vec![1], known: vec![known], by_codes: true }
    }

    #[test]
    fn what_differs_is_told_one_fact_a_line() {
        let facts = |known| compare_explained(&asked(Some(known)), true, None, &mut Tally::new()).expect("no face is asked");
        let right = explain(FEED, 1);
        assert!(facts(right).is_empty());
        assert_eq!(
            facts(Explained { start: 19, length: 12, ..right }.with_codes(&[3])),
            [
                "message asked for: 1",
                "foretold: refused ORDER at line 2 for 12 bytes at 19, \" ORIGINATOR=\", codes [3]",
                "the second program: refused ORDER at line 2 for 11 bytes at 20, \"ORIGINATOR=\", codes [2]",
                "start: 19 by foretold, 20 by the second program",
                "length: 12 by foretold, 11 by the second program",
                "code 1: 3 by foretold, 2 by the second program",
            ]
        );
        assert_eq!(facts(Explained::accepted(7))[1], "foretold: accepted with 7 rows");
        assert!(facts(Explained { start: u32::MAX, ..right })[1].contains("that are not in the feed"));
    }

    #[test]
    fn a_face_that_says_something_else_is_told_for_each_number() {
        let right = explain(FEED, 1).named().map(|(_, number)| number);
        // This face says what it hears.
        let mut face = Face::start(&["cat".to_string()]).expect("started");
        let bytes = |numbers: [u32; 10]| numbers.iter().flat_map(|number| number.to_le_bytes()).collect::<Vec<u8>>();
        face.send(bytes(right));
        for at in 0..10 {
            let mut other = right;
            other[at] += 1;
            face.send(bytes(other));
        }
        let mut tally = Tally::new();
        let facts: Vec<_> =
            (0..11).map(|_| compare_explained(&asked(None), true, Some(&mut face), &mut tally).expect("answered").len()).collect();
        assert_eq!(facts, [0, 4, 4, 4, 4, 4, 4, 4, 4, 4, 4]);
        assert_eq!(tally.answers, 11);
    }

    #[test]
    fn the_face_is_asked_for_each_message() {
        let mut face = Face::start(&["cat".to_string()]).expect("started");
        let none = Explained { reason: 2, ..Explained::default() };
        let numbers = [explain(FEED, 1), none, Explained { codes: [0, 0, 0, 1], ..none }].map(|one| one.named().map(|(_, number)| number));
        face.send(numbers.iter().flatten().flat_map(|number| number.to_le_bytes()).collect());
        let asked = Explaining { feed: FEED.into(), messages: vec![1, 0, 2], known: vec![None; 3], by_codes: false };
        let facts = compare_explained(&asked, false, Some(&mut face), &mut Tally::new()).expect("answered");
        assert_eq!(facts.len(), 4);
        assert_eq!(facts[0], "message asked for: 2");
        assert_eq!(facts[3], "code 4: 0 by the second program, 1 by the product");
    }
}
