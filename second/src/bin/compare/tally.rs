//! What has been counted, what it says at the end, and what is kept of a difference.

use crate::blames::{blames, listed, Blames, Listed};
use crate::degrees::{degrees, Degrees};
use crate::items::Item;
use crate::outputs::{outputs, Outputs};
use crate::phrases::{phrases, Phrases};
use crate::previews::{previews, Previews};
use crate::roundings::{roundings, Roundings};
use crate::sixty::{sixties, Sixties};
use crate::widths::{widths, Widths};
use crate::words::{counts_words, rare};
use second::desk::{reason_name, NO_ROOM, PLACES, TOO_BIG, WIDE};
use second::judge::Reason;
use std::path::{Path, PathBuf};

/// Each 20,000 generated feeds must bring every reason, every case of second 60 and of degrees, and everything that previews, writings and
/// explanations can show, this often.
const FLOOR: usize = 100;
pub const FLOOR_FEEDS: usize = 20_000;

/// An explanation with a line must come so many times as often, for every reason.
const EXPLAINED_TIMES: usize = 10;

/// The same for each 120,000 generated texts, the reasons of sayings and everything that they can show.
pub const FLOOR_TEXTS: usize = 120_000;

/// And for each 15,000 turns of generated tables, the reasons of widenings and narrowings and everything that they can show.
pub const FLOOR_TABLES: usize = 15_000;

/// And for each 60,000 generated values, the reasons of voicings and everything that they can show.
pub const FLOOR_VALUES: usize = 60_000;

/// How many feeds, texts, turns of tables and values are generated.
#[derive(Clone, Copy)]
pub struct Generated {
    pub feeds: usize,
    pub texts: usize,
    pub tables: usize,
    pub values: usize,
}

/// As many as the floors are for.
pub const WHOLE: Generated = Generated { feeds: FLOOR_FEEDS, texts: FLOOR_TEXTS, tables: FLOOR_TABLES, values: FLOOR_VALUES };

/// How often each answer came to one kind of call; number 0 is the good answer.
pub struct Counts {
    what: &'static str,
    good: &'static str,
    reasons: Vec<u32>,
    counts: [usize; 20],
}

impl Counts {
    fn new(what: &'static str, good: &'static str, reasons: impl IntoIterator<Item = u32>) -> Counts {
        Counts { what, good, reasons: reasons.into_iter().collect(), counts: [0; 20] }
    }

    pub fn add(&mut self, reason: u32) {
        self.counts[reason as usize] += 1;
    }

    /// The reasons that this kind of call can give, by name, with their counts.
    fn named(&self) -> impl Iterator<Item = (&'static str, usize)> + '_ {
        self.reasons.iter().map(|reason| (reason_name(*reason).unwrap_or("no name"), self.counts[*reason as usize]))
    }

    fn rare(&self, floor: usize) -> Vec<String> {
        rare(self.what, self.named(), floor)
    }

    /// The good answer too has this floor here, and a reason with a line a higher one.
    fn rare_explained(&self, floor: usize) -> Vec<String> {
        let has_line = |name: &&str| !["FEED_LONG", "NO_MESSAGE"].contains(name);
        let (high, low): (Vec<_>, Vec<_>) = self.named().partition(|(name, _)| has_line(name));
        let low = [(self.good, self.counts[0])].into_iter().chain(low);
        [rare(self.what, low, floor), rare(self.what, high.into_iter(), EXPLAINED_TIMES * floor)].concat()
    }

    pub fn words(&self) -> String {
        format!("{}: {} {}, {}", self.what, self.good, self.counts[0], counts_words(self.named()))
    }
}

/// What has been counted so far; the reasons, the second 60, the degrees, the previews, the outputs, the blames, the listed codes, the roundings,
/// the widths and the phrases are those of generated feeds, texts, tables and values alone.
pub struct Tally {
    pub feeds: usize,
    pub texts: usize,
    pub tables: usize,
    pub answers: usize,
    pub differences: usize,
    pub judged: Counts,
    pub explained: Counts,
    pub placings: Counts,
    pub tickets: Counts,
    pub writings: Counts,
    pub sayings: Counts,
    pub widenings: Counts,
    pub narrowings: Counts,
    pub voicings: Counts,
    pub sixties: Sixties,
    pub degrees: Degrees,
    pub previews: Previews,
    pub outputs: Outputs,
    pub blames: Blames,
    pub listed: Listed,
    pub roundings: Roundings,
    pub widths: Widths,
    pub phrases: Phrases,
    save: PathBuf,
}

impl Tally {
    pub fn new() -> Tally {
        Tally {
            feeds: 0,
            texts: 0,
            tables: 0,
            answers: 0,
            differences: 0,
            judged: Counts::new("generated judgements", "accepted", 1..=11),
            explained: Counts::new("generated explanations", "accepted", 1..=11),
            placings: Counts::new("generated placings", "accepted", 1..=13),
            tickets: Counts::new("generated tickets", "answered", 14..=16),
            writings: Counts::new("generated writings", "written", 1..=12),
            sayings: Counts::new("generated sayings", "said", [Reason::Value.number(), TOO_BIG, PLACES]),
            widenings: Counts::new("generated widenings", "widened", [NO_ROOM]),
            narrowings: Counts::new("generated narrowings", "narrowed", [NO_ROOM, WIDE]),
            voicings: Counts::new("generated voicings", "said", [Reason::Value.number(), NO_ROOM]),
            sixties: sixties(),
            degrees: degrees(),
            previews: previews(),
            outputs: outputs(),
            blames: blames(),
            listed: listed(),
            roundings: roundings(),
            widths: widths(),
            phrases: phrases(),
            save: save_directory(),
        }
    }

    /// Says what was counted; true if there was no difference and everything came often enough among so many generated feeds and so on.
    pub fn report(&self, Generated { feeds, texts, tables, values }: Generated) -> bool {
        let floor = floor_of(feeds, FLOOR_FEEDS);
        let kinds = [&self.judged, &self.placings, &self.tickets, &self.writings];
        let of_kinds = kinds.iter().flat_map(|counts| counts.rare(floor));
        let of_feeds = self.sixties.rare(floor).into_iter().chain(self.degrees.rare(floor)).chain(self.outputs.rare(floor));
        let of_feeds = of_feeds.chain(self.previews.rare(floor));
        let of_blames = self.explained.rare_explained(floor).into_iter().chain(self.blames.rare(floor)).chain(self.listed.rare(floor));
        let floor = floor_of(texts, FLOOR_TEXTS);
        let of_texts = self.sayings.rare(floor).into_iter().chain(self.roundings.rare(floor));
        let floor = floor_of(tables, FLOOR_TABLES);
        let movings = [&self.widenings, &self.narrowings];
        let of_tables = movings.iter().flat_map(|counts| counts.rare(floor)).chain(self.widths.rare(floor));
        let floor = floor_of(values, FLOOR_VALUES);
        let of_values = self.voicings.rare(floor).into_iter().chain(self.phrases.rare(floor));
        let of_others = of_texts.chain(of_tables).chain(of_values);
        let rare: Vec<String> = of_kinds.chain(of_feeds).chain(of_blames).chain(of_others).collect();
        // A run that stopped early has not had the time to bring everything.
        let too_rare = self.differences == 0 && !rare.is_empty();
        if too_rare {
            rare.iter().for_each(|words| println!("{words}"));
        }
        kinds.iter().for_each(|counts| println!("{}", counts.words()));
        println!("{}", self.explained.words());
        println!("{}", self.sayings.words());
        movings.iter().for_each(|counts| println!("{}", counts.words()));
        println!("{}", self.voicings.words());
        println!("{}", self.sixties.words());
        println!("{}", self.degrees.words());
        println!("{}", self.previews.words());
        println!("{}", self.outputs.words());
        println!("{}", self.blames.words());
        println!("{}", self.listed.words());
        println!("{}", self.roundings.words());
        println!("{}", self.widths.words());
        println!("{}", self.phrases.words());
        println!("{} feeds, {} answers, {} differences", self.feeds, self.answers, self.differences);
        self.differences == 0 && !too_rare
    }

    /// Keeps what a difference was asked about, and what went with it, and says where.
    pub fn keep(&self, item: &Item) -> String {
        let words: Vec<String> = item.parts().into_iter().map(|(what, bytes)| self.keep_as(what, bytes)).collect();
        words.join("\n")
    }

    fn keep_as(&self, what: &str, bytes: &[u8]) -> String {
        let path = self.save.join(format!("difference-{}.{what}", self.differences));
        match write_file(&path, bytes) {
            Ok(()) => format!("the {what} is kept in {}", path.display()),
            Err(error) => format!("the {what} could not be kept in {}: {error}", path.display()),
        }
    }
}

/// How often each thing must come among so many; fewer than a whole run's have no floor.
fn floor_of(generated: usize, whole: usize) -> usize {
    FLOOR * (generated / whole)
}

/// The directory `build` of the repository, wherever within it the program is started.
fn save_directory() -> PathBuf {
    let mut root = PathBuf::new();
    for _ in 0..4 {
        if root.join("second/Cargo.toml").is_file() {
            return root.join("build");
        }
        root.push("..");
    }
    PathBuf::from("build")
}

fn write_file(path: &Path, bytes: &[u8]) -> std::io::Result<()> {
    if let Some(directory) = path.parent() {
        std::fs::create_dir_all(directory)?;
    }
    std::fs::write(path, bytes)
}

#[cfg(test)]
mod tests {
    use super::*;

    /// A tally in which everything came just often enough.
    fn whole() -> Tally {
        let mut tally = Tally::new();
        let of_feeds = [&mut tally.judged, &mut tally.placings, &mut tally.tickets, &mut tally.writings];
        let of_others = [&mut tally.sayings, &mut tally.widenings, &mut tally.narrowings, &mut tally.voicings];
        for counts in of_feeds.into_iter().chain(of_others) {
            counts.reasons.clone().into_iter().for_each(|reason| (0..FLOOR).for_each(|_| counts.add(reason)));
        }
        tally.sixties.counts = [FLOOR; 6];
        tally.degrees.counts = [FLOOR; 4];
        tally.previews.counts = [FLOOR; 20];
        tally.outputs.counts = [FLOOR; 17];
        (0..=11).for_each(|reason| tally.explained.counts[reason] = if reason < 3 { FLOOR } else { 10 * FLOOR });
        tally.blames.counts.fill(FLOOR);
        tally.listed.counts.fill(FLOOR);
        tally.roundings.counts.fill(FLOOR);
        tally.widths.counts.fill(FLOOR);
        tally.phrases.counts.fill(FLOOR);
        tally
    }

    const NONE: Generated = Generated { feeds: 0, texts: 0, tables: 0, values: 0 };

    /// A run of one thing's floor fails for what is spoilt; one that is shorter in this has no floor.
    fn fails_by(of_floor: Generated, shorter: Generated, spoil: impl Fn(&mut Tally)) {
        let mut tally = whole();
        spoil(&mut tally);
        assert!(!tally.report(of_floor));
        assert!(tally.report(shorter));
    }

    /// It fails by its feeds.
    fn fails(spoil: impl Fn(&mut Tally)) {
        fails_by(Generated { feeds: FLOOR_FEEDS, ..NONE }, Generated { feeds: FLOOR_FEEDS - 1, ..WHOLE }, spoil);
    }

    fn fails_by_texts(spoil: impl Fn(&mut Tally)) {
        fails_by(Generated { texts: FLOOR_TEXTS, ..NONE }, Generated { texts: FLOOR_TEXTS - 1, ..WHOLE }, spoil);
    }

    fn fails_by_tables(spoil: impl Fn(&mut Tally)) {
        fails_by(Generated { tables: FLOOR_TABLES, ..NONE }, Generated { tables: FLOOR_TABLES - 1, ..WHOLE }, spoil);
    }

    fn fails_by_values(spoil: impl Fn(&mut Tally)) {
        fails_by(Generated { values: FLOOR_VALUES, ..NONE }, Generated { values: FLOOR_VALUES - 1, ..WHOLE }, spoil);
    }

    #[test]
    fn a_run_that_has_everything_stands() {
        assert!(whole().report(WHOLE));
        assert!(!whole().report(Generated { feeds: 2 * FLOOR_FEEDS, ..WHOLE }));
        assert!(!whole().report(Generated { texts: 2 * FLOOR_TEXTS, ..WHOLE }));
        assert!(!whole().report(Generated { tables: 2 * FLOOR_TABLES, ..WHOLE }));
        assert!(!whole().report(Generated { values: 2 * FLOOR_VALUES, ..WHOLE }));
    }

    #[test]
    fn a_run_that_lacks_a_case_of_second_60_fails() {
        (0..6).for_each(|at| fails(|tally| tally.sixties.counts[at] -= 1));
    }

    #[test]
    fn a_run_that_lacks_a_case_of_degrees_fails() {
        (0..4).for_each(|at| fails(|tally| tally.degrees.counts[at] -= 1));
    }

    #[test]
    fn a_run_that_lacks_something_that_previews_show_fails() {
        (0..20).for_each(|at| fails(|tally| tally.previews.counts[at] -= 1));
    }

    #[test]
    fn a_run_that_lacks_something_that_writings_show_fails() {
        (0..17).for_each(|at| fails(|tally| tally.outputs.counts[at] -= 1));
    }

    #[test]
    fn a_run_that_lacks_a_reason_of_writings_fails() {
        (1..=12).for_each(|reason| fails(|tally| tally.writings.counts[reason] -= 1));
    }

    #[test]
    fn a_run_that_lacks_a_reason_of_explanations_fails() {
        (0..=11).for_each(|reason| fails(|tally| tally.explained.counts[reason] -= 1));
    }

    #[test]
    fn a_run_that_lacks_something_that_explanations_show_fails() {
        (0..whole().blames.counts.len()).for_each(|at| fails(|tally| tally.blames.counts[at] -= 1));
        (0..whole().listed.counts.len()).for_each(|at| fails(|tally| tally.listed.counts[at] -= 1));
    }

    #[test]
    fn a_run_that_lacks_a_reason_of_sayings_fails() {
        [8, 17, 18].into_iter().for_each(|reason: usize| fails_by_texts(|tally| tally.sayings.counts[reason] -= 1));
    }

    #[test]
    fn a_run_that_lacks_a_reason_of_movings_fails() {
        fails_by_tables(|tally| tally.widenings.counts[12] -= 1);
        [12, 19].into_iter().for_each(|reason: usize| fails_by_tables(|tally| tally.narrowings.counts[reason] -= 1));
    }

    #[test]
    fn a_run_that_lacks_something_that_movings_show_fails() {
        (0..whole().widths.counts.len()).for_each(|at| fails_by_tables(|tally| tally.widths.counts[at] -= 1));
    }

    #[test]
    fn a_run_that_lacks_something_that_sayings_show_fails() {
        (0..whole().roundings.counts.len()).for_each(|at| fails_by_texts(|tally| tally.roundings.counts[at] -= 1));
    }

    #[test]
    fn a_run_that_lacks_a_reason_of_voicings_fails() {
        [8, 12].into_iter().for_each(|reason: usize| fails_by_values(|tally| tally.voicings.counts[reason] -= 1));
    }

    #[test]
    fn a_run_that_lacks_something_that_voicings_show_fails() {
        (0..whole().phrases.counts.len()).for_each(|at| fails_by_values(|tally| tally.phrases.counts[at] -= 1));
    }
}
