//! Fixed cases: the figures of document 002, and every edge of documents 01 and 02, each with its answer written by hand.

mod day;
mod degree;
mod desks;
mod explaining;
mod feeds;
mod lines;
mod moving;
mod orders;
mod previewing;
mod saying;
mod sending;
mod sixty;
mod values;
mod voicing;

use crate::bytes::Bytes;
use crate::judge::{Reason, Row};
pub use desks::{desks, DeskCases, PlaceCase, ReadCase};
pub use explaining::{explainings, ExplainCase};
pub use moving::{movings, MoveCase};
pub use previewing::{previewings, SitCase};
pub use saying::{sayings, SayCase};
pub use sending::{sendings, SendCase};
pub use voicing::{voicings, VoiceCase};

/// The answer that a case must get.
#[derive(Clone, Debug)]
pub enum Want {
    /// Accepted with so many rows; the rows shown must stand at their row numbers.
    Accepted {
        rows: usize,
        shown: Vec<(usize, Row)>,
    },
    Refused(Reason, usize),
}

/// One feed, one message of it, and the answer.
#[derive(Clone, Debug)]
pub struct Case {
    pub name: String,
    pub feed: Bytes,
    /// What counting headings must say.
    pub headings: Result<usize, Reason>,
    pub message: u64,
    pub want: Want,
    /// Whether it is judged and no more; the others are written and placed again as well, which the greatest feeds take too long for.
    pub only_judged: bool,
}

/// All fixed cases about judging.
pub fn all() -> Vec<Case> {
    let mut book = Book { cases: Vec::new() };
    feeds::figures(&mut book);
    feeds::full_feed(&mut book);
    feeds::numbers_of_messages(&mut book);
    feeds::headings(&mut book);
    feeds::several_messages(&mut book);
    feeds::sizes(&mut book);
    feeds::many_headings(&mut book);
    day::judged(&mut book);
    lines::endings(&mut book);
    lines::long_lines(&mut book);
    lines::bad_bytes(&mut book);
    lines::blanks(&mut book);
    lines::comments(&mut book);
    lines::marks(&mut book);
    lines::forms(&mut book);
    lines::keywords(&mut book);
    lines::misspelt(&mut book);
    orders::opm_order(&mut book);
    orders::oem_order(&mut book);
    orders::first_reasons(&mut book);
    orders::groups(&mut book);
    values::numbers(&mut book);
    values::integers(&mut book);
    values::epochs(&mut book);
    values::texts(&mut book);
    values::units(&mut book);
    values::bounds(&mut book);
    values::data_times(&mut book);
    sixty::systems(&mut book);
    sixty::clocks(&mut book);
    sixty::days(&mut book);
    sixty::own_systems(&mut book);
    sixty::elsewhere(&mut book);
    sixty::reasons(&mut book);
    sixty::neighbours(&mut book);
    sixty::rows(&mut book);
    degree::alone(&mut book);
    degree::gaps(&mut book);
    degree::values(&mut book);
    degree::spellings(&mut book);
    degree::others(&mut book);
    degree::elsewhere(&mut book);
    degree::other_faults(&mut book);
    degree::ends(&mut book);
    degree::messages(&mut book);
    degree::figures(&mut book);
    degree::rows(&mut book);
    book.cases
}

/// The cases as they are gathered.
struct Book {
    cases: Vec<Case>,
}

impl Book {
    fn add(&mut self, name: &str, feed: Vec<u8>, headings: Result<usize, Reason>, message: u64, want: Want) {
        self.add_shared(name, &feed.into(), headings, message, want);
    }

    /// A feed that more than one case asks about.
    fn add_shared(&mut self, name: &str, feed: &Bytes, headings: Result<usize, Reason>, message: u64, want: Want) {
        let feed = feed.clone();
        self.cases.push(Case { name: name.to_string(), feed, headings, message, want, only_judged: false });
    }

    /// A great feed of one message, to be judged and no more.
    fn great(&mut self, name: &str, feed: impl Into<Bytes>, want: Want) {
        self.add_shared(name, &feed.into(), Ok(1), 1, want);
        self.cases.iter_mut().rev().take(1).for_each(|case| case.only_judged = true);
    }

    /// A feed of one message that is accepted.
    fn stands(&mut self, name: &str, feed: impl Into<Vec<u8>>, rows: usize) {
        self.add(name, feed.into(), Ok(1), 1, Want::Accepted { rows, shown: Vec::new() });
    }

    /// A feed of one message that is refused.
    fn falls(&mut self, name: &str, feed: impl Into<Vec<u8>>, reason: Reason, line: usize) {
        self.add(name, feed.into(), Ok(1), 1, Want::Refused(reason, line));
    }

    /// A feed of one message that is accepted, with some of its rows.
    fn shows(&mut self, name: &str, feed: impl Into<Vec<u8>>, rows: usize, shown: &[(usize, [u32; 5])]) {
        let shown = shown.iter().map(|(at, numbers)| (*at, row(*numbers))).collect();
        self.add(name, feed.into(), Ok(1), 1, Want::Accepted { rows, shown });
    }
}

fn row([code, group, line, start, length]: [u32; 5]) -> Row {
    Row { code, group, line, start, length }
}

/// A message as lines that can be changed by their number, from 1.
#[derive(Clone)]
struct Sheet(Vec<Vec<u8>>);

impl Sheet {
    fn of(lines: &[&str]) -> Sheet {
        Sheet(lines.iter().map(|line| line.as_bytes().to_vec()).collect())
    }

    /// The lines of a text.
    fn read(text: &str) -> Sheet {
        Sheet::of(&text.lines().collect::<Vec<_>>())
    }

    fn put(mut self, line: usize, text: impl AsRef<[u8]>) -> Sheet {
        self.0[line - 1] = text.as_ref().to_vec();
        self
    }

    /// The text becomes line number `line`, and what stood there moves down.
    fn insert(mut self, line: usize, text: impl AsRef<[u8]>) -> Sheet {
        self.0.insert(line - 1, text.as_ref().to_vec());
        self
    }

    fn drop(mut self, line: usize) -> Sheet {
        self.0.remove(line - 1);
        self
    }

    fn twice(self, line: usize) -> Sheet {
        let text = self.0[line - 1].clone();
        self.insert(line, text)
    }

    fn add(mut self, text: impl AsRef<[u8]>) -> Sheet {
        self.0.push(text.as_ref().to_vec());
        self
    }

    fn keep(mut self, lines: usize) -> Sheet {
        self.0.truncate(lines);
        self
    }

    /// The lines with an LF between them and none after the last.
    fn joined(&self) -> Vec<u8> {
        self.0.join(&b'\n')
    }

    fn ended(&self, ending: &[u8]) -> Vec<u8> {
        self.0.iter().flat_map(|line| [line, ending].concat()).collect()
    }

    /// The lines with these endings in turn, again and again.
    fn ended_in_turn(&self, endings: &[&[u8]]) -> Vec<u8> {
        self.0.iter().zip(endings.iter().cycle()).flat_map(|(line, ending)| [line, *ending].concat()).collect()
    }
}

impl From<Sheet> for Vec<u8> {
    fn from(sheet: Sheet) -> Vec<u8> {
        sheet.ended(b"\n")
    }
}

impl From<Sheet> for Bytes {
    fn from(sheet: Sheet) -> Bytes {
        sheet.ended(b"\n").into()
    }
}

/// A feed of these messages.
fn joined_sheets(sheets: &[Sheet]) -> Vec<u8> {
    sheets.iter().flat_map(|sheet| sheet.ended(b"\n")).collect()
}

/// Document 01's feed in full: thirteen lines, 244 bytes, 19 rows.
fn oem() -> Sheet {
    Sheet::of(&[
        "CCSDS_OEM_VERS=1.0", "CREATION_DATE=2000-01-01T00:00:00", "ORIGINATOR=A", "META_START", "OBJECT_NAME=B", "OBJECT_ID=C",
        "CENTER_NAME=D", "REF_FRAME=E", "TIME_SYSTEM=UTC", "START_TIME=2000-001T00:00:00", "STOP_TIME=2000-001T00:00:00", "META_STOP",
        "2000-01-01T00:00:00 1 2 3 4 5 6",
    ])
}

/// The rows of document 01's feed.
const FULL_ROWS: [[u32; 5]; 19] = [
    [36, 0, 1, 15, 3],
    [2, 0, 2, 33, 19],
    [3, 0, 3, 64, 1],
    [37, 1, 4, 76, 0],
    [4, 1, 5, 89, 1],
    [5, 1, 6, 101, 1],
    [6, 1, 7, 115, 1],
    [7, 1, 8, 127, 1],
    [8, 1, 9, 141, 3],
    [38, 1, 10, 156, 17],
    [41, 1, 11, 184, 17],
    [44, 1, 12, 211, 0],
    [9, 1, 13, 212, 19],
    [10, 1, 13, 232, 1],
    [11, 1, 13, 234, 1],
    [12, 1, 13, 236, 1],
    [13, 1, 13, 238, 1],
    [14, 1, 13, 240, 1],
    [15, 1, 13, 242, 1],
];

/// An OEM of two segments with every option: META_START at 4 and 20, data at 17, 18, 19 and 29, 30; 60 rows.
fn wide_oem() -> Sheet {
    Sheet::of(&[
        "CCSDS_OEM_VERS=1.0", "CREATION_DATE=2000-01-01T00:00:00", "ORIGINATOR=A", "META_START", "OBJECT_NAME=B", "OBJECT_ID=C",
        "CENTER_NAME=D", "REF_FRAME=E", "TIME_SYSTEM=UTC", "START_TIME=2000-01-01T00:00:00", "USEABLE_START_TIME=2000-01-02T00:00:00",
        "USEABLE_STOP_TIME=2000-01-03T00:00:00", "STOP_TIME=2000-01-04T00:00:00", "INTERPOLATION=Hermite", "INTERPOLATION_DEGREE=7",
        "META_STOP", "2000-01-01T00:00:00 1 2 3 4 5 6", "2000-01-02T00:00:00 1 2 3 4 5 6", "2000-01-04T00:00:00 1 2 3 4 5 6", "META_START",
        "OBJECT_NAME=B", "OBJECT_ID=C", "CENTER_NAME=D", "REF_FRAME=E", "TIME_SYSTEM=UTC", "START_TIME=2000-01-01T00:00:00",
        "STOP_TIME=2000-01-04T00:00:00", "META_STOP", "2000-01-01T00:00:00 1 2 3 4 5 6", "2000-01-02T00:00:00 1 2 3 4 5 6",
    ])
}

/// An OPM with nothing optional: 20 lines, 20 rows.
fn opm() -> Sheet {
    Sheet::of(&[
        "CCSDS_OPM_VERS=1.0", "CREATION_DATE=2000-01-01T00:00:00", "ORIGINATOR=A", "OBJECT_NAME=B", "OBJECT_ID=C", "CENTER_NAME=D",
        "REF_FRAME=E", "TIME_SYSTEM=UTC", "EPOCH=2000-01-01T00:00:00", "X=1", "Y=2", "Z=3", "X_DOT=4", "Y_DOT=5", "Z_DOT=6", "MASS=7",
        "SOLAR_RAD_AREA=8", "SOLAR_RAD_COEFF=9", "DRAG_AREA=10", "DRAG_COEFF=11",
    ])
}

/// An OPM with Keplerian elements (16 to 22), the craft (23 to 27) and two sets (28 to 34, 35 to 41): 41 lines, 41 rows.
fn wide_opm() -> Sheet {
    let kepler =
        ["SEMI_MAJOR_AXIS=1", "ECCENTRICITY=2", "INCLINATION=3", "RA_OF_ASC_NODE=4", "ARG_OF_PERICENTER=5", "TRUE_ANOMALY=6", "GM=7"];
    let set = [
        "MAN_EPOCH_IGNITION=2000-001T00:00:00", "MAN_DURATION=1", "MAN_DELTA_MASS=2", "MAN_REF_FRAME=F", "MAN_DV_1=3", "MAN_DV_2=4",
        "MAN_DV_3=5",
    ];
    let mut lines = opm().0;
    lines.splice(15..15, kepler.iter().map(|line| line.as_bytes().to_vec()));
    lines.extend(set.iter().chain(&set).map(|line| line.as_bytes().to_vec()));
    Sheet(lines)
}

#[cfg(test)]
mod tests {
    use super::*;
    use crate::desk::{place, read, value};
    use crate::hear;
    use crate::judge::{explain, Answer, Feed};
    use crate::mend::Said;
    use crate::say::say;
    use crate::send::send;
    use crate::sitting::sit;
    use crate::voice::{voice, words, Voicing};
    use crate::weigh::weigh;
    use crate::widths::shift;

    fn all_differ(mut names: Vec<String>, least: usize) {
        let count = names.len();
        names.sort();
        names.windows(2).for_each(|pair| assert_ne!(pair[0], pair[1]));
        assert!(count >= least);
    }

    #[test]
    fn names_differ() {
        all_differ(all().into_iter().map(|case| case.name).collect(), 120);
        let DeskCases { placings, reads } = desks();
        all_differ(placings.into_iter().map(|case| case.name).collect(), 120);
        all_differ(reads.into_iter().map(|case| case.name).collect(), 120);
        all_differ(previewings().into_iter().map(|case| case.name).collect(), 100);
        all_differ(sendings().into_iter().map(|case| case.name).collect(), 1_000);
        all_differ(sayings().into_iter().map(|case| case.name).collect(), 1_000);
        all_differ(movings().into_iter().map(|case| case.name).collect(), 400);
        all_differ(voicings().into_iter().map(|case| case.name).collect(), 10_000);
        all_differ(explainings().into_iter().map(|case| case.name).collect(), 1_000);
    }

    #[test]
    fn the_explainer_gives_the_answers_written_by_hand() {
        explainings().iter().for_each(|case| assert_eq!(explain(&case.feed, case.message), case.want, "{}", case.name));
    }

    #[test]
    fn the_answers_written_by_hand_have_no_fault_when_mended() {
        for ExplainCase { name, feed, message, want } in explainings() {
            let said = Said { bytes: &feed, feed: &Feed::new(&feed), message, explained: want };
            assert_eq!((said.fault(), said.codes_fault()), (None, None), "{name}");
        }
    }

    #[test]
    fn the_mover_gives_the_answers_written_by_hand() {
        movings().iter().for_each(|case| assert!(shift(&case.moving) == case.want, "{}", case.name));
    }

    /// Request (vi)'s numbers, each over 16 bits somewhere, and a refusal at such a line for every reason that has a line.
    #[test]
    fn the_cases_have_numbers_over_16_bits() {
        let cases = all();
        let is_over = |number: u32| number > 65_535;
        let shown =
            || cases.iter().filter_map(|case| if let Want::Accepted { shown, .. } = &case.want { Some(shown) } else { None }).flatten();
        assert!(shown().any(|(at, _)| is_over(*at as u32)));
        for number in [|row: &Row| row.group, |row: &Row| row.line, |row: &Row| row.start] {
            assert!(shown().any(|(_, row)| is_over(number(row))));
        }
        assert!(cases.iter().any(|case| case.headings.is_ok_and(|count| is_over(count as u32))));
        for reason in (3..=11).filter_map(Reason::of_number) {
            assert!(cases.iter().any(|case| matches!(case.want, Want::Refused(why, line) if why == reason && is_over(line as u32))));
        }
    }

    #[test]
    fn the_sayer_gives_the_answers_written_by_hand() {
        sayings().iter().for_each(|case| assert_eq!(say(&case.saying), case.want, "{}", case.name));
    }

    #[test]
    fn the_answers_written_by_hand_have_no_fault_when_weighed() {
        sayings().iter().for_each(|case| assert_eq!(weigh(&case.saying).fault(case.want), None, "{}", case.name));
    }

    #[test]
    fn the_speaker_gives_the_answers_written_by_hand() {
        voicings().iter().for_each(|case| assert!(voice(&case.voicing) == case.want, "{}", case.name));
    }

    #[test]
    fn the_words_written_by_hand_are_heard_as_their_values() {
        voicings().iter().for_each(|case| assert_eq!(hear::fault(&case.voicing, &case.want), None, "{}", case.name));
    }

    /// A META line has no value to be said, and every other row of a right message has one.
    #[test]
    fn every_row_has_words() {
        let is_short = |case: &Case| case.feed.len() < 100_000;
        let mut said = 0;
        for Case { name, feed, message, .. } in all().into_iter().filter(is_short) {
            let Answer::Accepted(rows) = Feed::new(&feed).judge(message) else { continue };
            for row in rows.iter().filter(|row| ![37, 44].contains(&row.code)) {
                let value = value(&feed, row).expect("a judged row's value is in its feed");
                let words = words(row.code, value).unwrap_or_else(|| panic!("{name}: {}", value.escape_ascii()));
                let voicing = Voicing { code: row.code, value: value.to_vec(), buffer: words.into_bytes() };
                assert_eq!(hear::fault(&voicing, &voice(&voicing)), None, "{name}");
                said += 1;
            }
        }
        assert!(said > 10_000, "{said} rows");
    }

    #[test]
    fn the_writer_gives_the_answers_written_by_hand() {
        sendings().iter().for_each(|case| assert!(send(&case.sending) == case.want, "{}", case.name));
    }

    #[test]
    fn the_desk_gives_the_answers_written_by_hand() {
        let DeskCases { placings, reads } = desks();
        placings.iter().for_each(|case| assert!(place(&case.placing) == case.want, "{}", case.name));
        reads.iter().for_each(|case| assert_eq!(read(&case.reading), case.want, "{}", case.name));
    }

    #[test]
    fn sittings_give_the_answers_written_by_hand() {
        for SitCase { name, sitting, want } in previewings() {
            let sat = sit(&sitting);
            assert_eq!(sat.replies.into_iter().map(Some).collect::<Vec<_>>(), want.replies, "{name}");
            assert!(sat.table == want.table.unwrap_or(sitting.table), "{name}");
        }
    }

    #[test]
    fn the_judge_gives_the_answers_written_by_hand() {
        for case in all() {
            let feed = Feed::new(&case.feed);
            assert_eq!(feed.headings(), case.headings, "{}", case.name);
            match (feed.judge(case.message), case.want) {
                (Answer::Refused { reason, line }, want) => {
                    assert!(matches!(want, Want::Refused(r, l) if r == reason && l == line), "{}: {} at {line}", case.name, reason.name())
                }
                (Answer::Accepted(got), Want::Accepted { rows, shown }) => {
                    assert_eq!(got.len(), rows, "{}", case.name);
                    shown.iter().for_each(|(at, row)| assert_eq!(got[*at], *row, "{}", case.name));
                }
                (Answer::Accepted(_), Want::Refused(..)) => panic!("{}: accepted", case.name),
            }
        }
    }
}
