//! What is counted of second 60: generated feeds with a message that was accepted with it, and those with one that was refused for it.
//! It is looked for in the bytes, by its look alone, so that the judge's own reading of epochs is not asked.

use crate::shown::Shown;
use second::judge::{is_heading, judge, Answer, Feed, Kind, Place, Reason, Row};

/// What a feed can be counted as, in the words of the report.
const NAMES: [&str; 6] = [
    "OPM accepted with it",
    "OEM accepted with it",
    "OPM refused for it",
    "OEM refused for it",
    "OEM accepted with it among segments of different time systems",
    "OEM refused for it after segments of a different time system",
];

const ACCEPTED: [usize; 2] = [0, 1];
const REFUSED: [usize; 2] = [2, 3];
const MIXED_ACCEPTED: usize = 4;
const MIXED_REFUSED: usize = 5;

/// How many feeds were counted as each.
pub type Sixties = Shown<{ NAMES.len() }>;

pub fn sixties() -> Sixties {
    Shown::new("generated feeds with second 60", "second 60", NAMES)
}

/// What a message shows by the answer that it got.
pub fn things(bytes: &[u8], feed: &Feed, message: u64, answer: &Answer) -> Vec<usize> {
    let Some(kind) = kind_of(bytes, feed, message) else { return Vec::new() };
    let (plain, mixed, is_mixed) = match answer {
        Answer::Accepted(rows) if is_told(bytes, rows) => (ACCEPTED, MIXED_ACCEPTED, is_mixed(bytes, rows)),
        Answer::Refused { reason: Reason::Value, line } => match feed.place(message, *line) {
            Some(place) if is_refused_for_it(bytes, place, *line) => (REFUSED, MIXED_REFUSED, is_after_another(bytes, place)),
            _ => return Vec::new(),
        },
        _ => return Vec::new(),
    };
    match kind {
        Kind::Opm => vec![plain[0]],
        Kind::Oem if is_mixed => vec![plain[1], mixed],
        Kind::Oem => vec![plain[1]],
    }
}

fn kind_of(bytes: &[u8], feed: &Feed, message: u64) -> Option<Kind> {
    let heading = feed.place(message, 1)?;
    is_heading(&bytes[heading.line_start..heading.line_end])
}

/// Where the second is in a text that shows `Thh:mm:60`.
fn sixty_in(text: &[u8]) -> Option<usize> {
    let shown =
        |part: &[u8]| part.iter().zip(b"Tdd:dd:60").all(|(byte, sign)| if *sign == b'd' { byte.is_ascii_digit() } else { byte == sign });
    text.windows(9).position(shown).map(|at| at + 7)
}

fn value<'f>(bytes: &'f [u8], row: &Row) -> &'f [u8] {
    &bytes[row.start as usize..][..row.length as usize]
}

fn shows_it(bytes: &[u8], row: &Row) -> bool {
    matches!(row.code, 2 | 9 | 29 | 38..=41) && sixty_in(value(bytes, row)).is_some()
}

/// Whether a row of the message is an epoch at second 60.
fn is_told(bytes: &[u8], rows: &[Row]) -> bool {
    rows.iter().any(|row| shows_it(bytes, row))
}

/// Whether a segment has an epoch at second 60, and segments have different time systems.
fn is_mixed(bytes: &[u8], rows: &[Row]) -> bool {
    let systems: Vec<&[u8]> = rows.iter().filter(|row| row.code == 8).map(|row| value(bytes, row)).collect();
    rows.iter().any(|row| row.code != 2 && shows_it(bytes, row)) && systems.iter().any(|system| *system != systems[0])
}

/// Whether a line blamed with VALUE shows second 60 and, with 59 in its place, is blamed with VALUE no more.
fn is_refused_for_it(bytes: &[u8], place: Place, line: usize) -> bool {
    let Some(at) = sixty_in(&bytes[place.line_start..place.line_end]) else { return false };
    let mut mended = bytes[place.message_start..place.line_end].to_vec();
    let second = place.line_start - place.message_start + at;
    mended[second..second + 2].copy_from_slice(b"59");
    judge(&mended, 1) != Answer::Refused { reason: Reason::Value, line }
}

/// Whether the lines before the blamed one name a system that differs from the one named last.
/// None of them is blamed, so whatever begins as such an assignment is one.
fn is_after_another(bytes: &[u8], place: Place) -> bool {
    let before = String::from_utf8_lossy(&bytes[place.message_start..place.line_start]);
    let assigned = before.split(['\r', '\n']).filter_map(|line| line.split_once('='));
    let systems: Vec<&str> = assigned.filter(|(word, _)| word.trim() == "TIME_SYSTEM").map(|(_, system)| system.trim()).collect();
    systems.iter().any(|system| Some(system) != systems.last())
}

#[cfg(test)]
mod tests {
    use super::*;
    use crate::shown;
    use std::collections::BTreeMap;

    const HEAD: &str = "CCSDS_OEM_VERS=1.0\nCREATION_DATE=2000-001T00:00:00\nORIGINATOR=A\n";

    /// A segment with one data line, at this clock.
    fn segment(system: &str, clock: &str) -> String {
        let object = "META_START\nOBJECT_NAME=B\nOBJECT_ID=C\nCENTER_NAME=D\nREF_FRAME=E";
        let bounds = "START_TIME=2000-001T00:00:00\nSTOP_TIME=2000-009T00:00:00\nMETA_STOP";
        format!("{object}\nTIME_SYSTEM={system}\n{bounds}\n2000-01-01T{clock} 1 2 3 4 5 6\n")
    }

    fn counted(feed: &str) -> [usize; 6] {
        shown::counted(sixties(), feed, things)
    }

    #[test]
    fn second_60_is_known_by_its_look() {
        assert_eq!(sixty_in(b"EPOCH = 2000-001T23:59:60.5"), Some(23));
        assert_eq!(sixty_in(b"2000-001T22:00:60"), Some(15));
        for other in [&b""[..], b"T23:59:6", b"2000-001T23:59:59.60", b"2000-001T23:60:00", b"23:59:60", b"2060-060T06:06:06"] {
            assert_eq!(sixty_in(other), None);
        }
    }

    #[test]
    fn a_feed_is_counted_by_its_answers() {
        assert_eq!(counted(&format!("{HEAD}{}", segment("UTC", "23:59:59"))), [0; 6]);
        assert_eq!(counted(&format!("{HEAD}{}", segment("UTC", "23:59:60"))), [0, 1, 0, 0, 0, 0]);
        assert_eq!(counted(&format!("{HEAD}{}", segment("TAI", "23:59:60"))), [0, 0, 0, 1, 0, 0]);
        assert_eq!(counted(&format!("{HEAD}{}", segment("UTC", "22:59:60.5"))), [0, 0, 0, 1, 0, 0]);
        assert_eq!(counted(&HEAD.replace("00:00:00", "22:59:60").replace("OEM", "OPM")), [0, 0, 1, 0, 0, 0]);
        // A line that has something else wrong as well is not refused for its second 60 alone.
        assert_eq!(counted(&format!("{HEAD}{}", segment("TAI", "23:59:60.1234567890"))), [0; 6]);
        assert_eq!(counted(&format!("{HEAD}{}", segment("UTC", "24:59:60"))), [0; 6]);
        assert_eq!(counted(&format!("{HEAD}{}", segment("UTC", "23:59:61"))), [0; 6]);
    }

    #[test]
    fn a_feed_is_counted_once() {
        let one = format!("{HEAD}{}", segment("UTC", "23:59:60"));
        let other = format!("{HEAD}{}", segment("TAI", "23:59:60"));
        assert_eq!(counted(&one.repeat(3)), [0, 1, 0, 0, 0, 0]);
        assert_eq!(counted(&format!("{one}{other}{other}")), [0, 1, 0, 1, 0, 0]);
    }

    #[test]
    fn segments_count_as_mixed_by_their_systems() {
        let two =
            |one: (&str, &str), other: (&str, &str)| counted(&format!("{HEAD}{}{}", segment(one.0, one.1), segment(other.0, other.1)));
        assert_eq!(two(("UTC", "23:59:60"), ("UTC", "23:59:59")), [0, 1, 0, 0, 0, 0]);
        assert_eq!(two(("UTC", "23:59:60"), ("TAI", "23:59:59")), [0, 1, 0, 0, 1, 0]);
        assert_eq!(two(("TAI", "23:59:59"), ("UTC", "23:59:60")), [0, 1, 0, 0, 1, 0]);
        assert_eq!(two(("UTC", "23:59:60"), ("TAI", "23:59:60")), [0, 0, 0, 1, 0, 1]);
        assert_eq!(two(("TAI", "23:59:59"), ("TAI", "23:59:60")), [0, 0, 0, 1, 0, 0]);
        assert_eq!(two(("TAI", "23:59:60"), ("UTC", "23:59:60")), [0, 0, 0, 1, 0, 0]);
    }

    /// Every code with an epoch at second 60 in accepted messages of some generated feeds, and how often.
    fn codes_accepted(seed: u64, feeds: usize, sixties: &mut Sixties) -> BTreeMap<(u32, bool), usize> {
        let mut codes = BTreeMap::new();
        shown::each_generated(seed, feeds, |bytes, feed, messages, answers| {
            sixties.add_feed(bytes, feed, messages, answers, things);
            for (message, answer) in messages.iter().zip(answers) {
                let Answer::Accepted(rows) = answer else { continue };
                let is_oem = kind_of(bytes, feed, *message) == Some(Kind::Oem);
                rows.iter().filter(|row| shows_it(bytes, row)).for_each(|row| *codes.entry((row.code, is_oem)).or_insert(0) += 1);
            }
        });
        codes
    }

    #[test]
    fn generated_feeds_bring_second_60_often_enough() {
        let seed = 1;
        let mut sixties = sixties();
        let codes = codes_accepted(seed, 2_000, &mut sixties);
        println!("seed {seed}: {}; epochs by code and by being in an OEM: {codes:?}", sixties.words());
        // A tenth of the feeds of a whole run, and twice the floor, so that a run has some to spare.
        assert_eq!(sixties.rare(20), Vec::<String>::new());
        for place in [(2, false), (2, true), (9, false), (9, true), (29, false), (38, true), (39, true), (40, true), (41, true)] {
            assert!(codes.get(&place).is_some_and(|count| *count >= 10), "{place:?}");
        }
    }
}
