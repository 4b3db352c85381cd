//! What is counted of writings: what went out, into how much room, and what was left out of it.
//! What was left out is known by the look of the message's lines beside those that went out, so that the judge's own reading is not asked.

use crate::shown::Shown;
use second::desk::{FINE, NO_ROOM};
use second::judge::{is_heading, Kind};
use second::send::Sent;
use second::writings::Writing;

/// What a writing can be counted as, in the words of the report.
const NAMES: [&str; 17] = [
    "OPM written", "OEM written", "written into just the room needed", "written into more room", "NO_ROOM by one byte",
    "NO_ROOM with half the room or less", "NO_ROOM with an empty buffer", "written without a unit", "written without a blank line",
    "written without blanks of an assignment", "written without blanks of a META line", "written without blanks of a data line",
    "written without blanks of a comment", "written without a CR", "written with an empty comment", "placed again", "written again",
];

const OPM: usize = 0;
const OEM: usize = 1;
const JUST: usize = 2;
const MORE: usize = 3;
const ONE_SHORT: usize = 4;
const HALF: usize = 5;
const EMPTY: usize = 6;
const UNIT: usize = 7;
const BLANK_LINE: usize = 8;
const ASSIGNMENT: usize = 9;
const META_LINE: usize = 10;
const DATA_LINE: usize = 11;
const COMMENT: usize = 12;
const CR: usize = 13;
const EMPTY_COMMENT: usize = 14;
const PLACED_AGAIN: usize = 15;
const WRITTEN_AGAIN: usize = 16;

/// How many writings were counted as each.
pub type Outputs = Shown<{ NAMES.len() }>;

pub fn outputs() -> Outputs {
    Shown::new("generated outputs", "writings", NAMES)
}

/// An output that was placed and written again.
pub const AGAIN: [usize; 2] = [PLACED_AGAIN, WRITTEN_AGAIN];

/// What a writing shows by what came of it.
pub fn things(writing: &Writing, sent: &Sent) -> Vec<usize> {
    let Ok(text) = &writing.letter.outgoing else { return Vec::new() };
    let mut things = room(sent.reason, sent.buffer.len(), text.len());
    if sent.reason == FINE {
        things.extend(is_heading(text).map(|kind| if kind == Kind::Opm { OPM } else { OEM }));
        things.extend(left_out(writing.letter.own_bytes(), text));
    }
    things
}

/// How much room there was for so many bytes.
fn room(reason: u32, size: usize, needed: usize) -> Vec<usize> {
    match reason {
        FINE if size == needed => vec![JUST],
        FINE => vec![MORE],
        NO_ROOM if size == 0 => vec![EMPTY, HALF],
        NO_ROOM if size + 1 == needed => vec![ONE_SHORT],
        NO_ROOM if size <= needed / 2 => vec![HALF],
        _ => Vec::new(),
    }
}

/// What a message has that its output has not; every line that isn't blank has one line of the output.
fn left_out(own: &[u8], text: &[u8]) -> Vec<usize> {
    let pieces: Vec<&[u8]> = own.split(|byte| matches!(byte, b'\r' | b'\n')).collect();
    let said = pieces.iter().filter(|piece| !is_blank(piece));
    let mut things: Vec<usize> =
        said.zip(text.split(|byte| *byte == b'\n')).filter_map(|(came, goes)| left_out_of_line(came, goes)).collect();
    // Two endings of the same byte are never one, so nothing stands between them.
    if pieces.iter().any(|piece| !piece.is_empty() && is_blank(piece)) || own.windows(2).any(|pair| matches!(pair, b"\n\n" | b"\r\r")) {
        things.push(BLANK_LINE);
    }
    if own.contains(&b'\r') {
        things.push(CR);
    }
    things
}

fn is_blank(text: &[u8]) -> bool {
    text.iter().all(|byte| *byte == b' ')
}

/// The first thing that a line shows.
fn left_out_of_line(came: &[u8], goes: &[u8]) -> Option<usize> {
    let is_shorter = goes.len() < came.len();
    match goes {
        b"COMMENT" => Some(EMPTY_COMMENT),
        b"META_START" | b"META_STOP" => is_shorter.then_some(META_LINE),
        _ if goes.starts_with(b"COMMENT ") => is_shorter.then_some(COMMENT),
        _ if !goes.contains(&b'=') => is_shorter.then_some(DATA_LINE),
        _ if came.trim_ascii_end().ends_with(b"]") && !goes.ends_with(b"]") => Some(UNIT),
        _ => is_shorter.then_some(ASSIGNMENT),
    }
}

#[cfg(test)]
mod tests {
    use super::*;
    use crate::items::{generated_items, Ask};
    use second::bytes::Bytes;
    use second::judge::Feed;
    use second::send::lay;
    use second::writings::Letter;
    use std::rc::Rc;

    const OEM_TEXT: &str = "CCSDS_OEM_VERS=1.0\nCREATION_DATE=2000-001T00:00:00\nORIGINATOR=[A]\nMETA_START\nOBJECT_NAME=B\nOBJECT_ID=C\n\
        CENTER_NAME=D\nREF_FRAME=E\nTIME_SYSTEM=UTC\nSTART_TIME=2000-001T00:00:00\nSTOP_TIME=2000-001T00:00:00\nMETA_STOP\n\
        2000-01-01T00:00:00 1 2 3 4 5 6";

    /// What a feed's first message is counted as on a buffer of so many bytes more than needed.
    fn counted(feed: &str, more: isize) -> Vec<usize> {
        let feed: Bytes = feed.as_bytes().into();
        let letter = Rc::new(Letter::new(&feed, &Feed::new(&feed), 1));
        let needed = letter.outgoing.as_ref().map_or(0, Vec::len);
        let writing = letter.into_buffer(vec![255; needed.checked_add_signed(more).unwrap()], None);
        let mut outputs = outputs();
        outputs.add(things(&writing, &lay(&writing.letter.outgoing, &writing.sending.buffer)));
        (0..NAMES.len()).flat_map(|at| vec![at; outputs.counts[at]]).collect()
    }

    #[test]
    fn a_writing_is_counted_by_its_room() {
        let needed = OEM_TEXT.len() as isize;
        assert_eq!(counted(OEM_TEXT, 0), [OEM, JUST]);
        assert_eq!(counted(OEM_TEXT, 1), [OEM, MORE]);
        assert_eq!(counted(OEM_TEXT, -1), [ONE_SHORT]);
        assert_eq!(counted(OEM_TEXT, -2), []);
        assert_eq!(counted(OEM_TEXT, 1 - needed), [HALF]);
        assert_eq!(counted(OEM_TEXT, -needed), [HALF, EMPTY]);
        assert_eq!(counted("", 7), []);
        assert_eq!(counted(&OEM_TEXT.replace("OBJECT_ID", "OBJECT_IDS"), 7), []);
    }

    #[test]
    fn a_writing_is_counted_by_what_it_leaves_out() {
        let with = |old: &str, new: &str| counted(&OEM_TEXT.replace(old, new), 0)[2..].to_vec();
        assert_eq!(with("=B", " = B"), [ASSIGNMENT]);
        assert_eq!(with("=[A]", " = [A]  "), [ASSIGNMENT]);
        assert_eq!(with("META_STOP", " META_STOP"), [META_LINE]);
        assert_eq!(with(" 1 2", " 1  2"), [DATA_LINE]);
        assert_eq!(with("\n", "\n\n"), [BLANK_LINE]);
        assert_eq!(with("\n", "\n \n"), [BLANK_LINE]);
        assert_eq!(with("\n", "\r\n"), [CR]);
        assert_eq!(with("\n", "\n\r\r\n"), [BLANK_LINE, CR]);
        assert_eq!(with("META_START", "COMMENT\nMETA_START"), [EMPTY_COMMENT]);
        assert_eq!(with("META_START", "COMMENT  x=1 [KM]\nMETA_START"), [COMMENT]);
        assert_eq!(with("META_START", "COMMENT x\nMETA_START\nCOMMENT x"), []);
        assert_eq!(left_out_of_line(b"X = 1 [KM] ", b"X=1"), Some(UNIT));
    }

    #[test]
    fn generated_writings_show_everything_often_enough() {
        let seed = 1;
        let mut outputs = outputs();
        for item in (0..2_000).flat_map(|turn| generated_items(seed, turn)) {
            match &item.ask {
                Ask::Write(writing) => outputs.add(things(writing, &lay(&writing.letter.outgoing, &writing.sending.buffer))),
                Ask::Again(_) => outputs.add(AGAIN),
                _ => {}
            }
        }
        println!("seed {seed}: {}", outputs.words());
        // A tenth of the feeds of a whole run, and twice the floor, so that a run has some to spare.
        assert_eq!(outputs.rare(20), Vec::<String>::new());
    }
}
