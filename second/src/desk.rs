//! Desk, table and tickets. Nothing is changed in place: a placing answers with the next desk and a whole new table.
//! A table is an image, a list of 32-bit numbers with at most three bytes over, and the new image is laid over the old one.

use crate::bytes::Bytes;
use crate::judge::{judge, Answer, Reason, Row};

/// What goes well has this number; the refusals are document 01's, the last three those of requests (v) and (vi).
pub const FINE: u32 = 0;
pub const NO_ROOM: u32 = 12;
pub const SPENT: u32 = 13;
pub const GONE: u32 = 14;
pub const NO_ROW: u32 = 15;
pub const ASTRAY: u32 = 16;
pub const TOO_BIG: u32 = 17;
pub const PLACES: u32 = 18;
pub const WIDE: u32 = 19;

/// The documents' name for a reason, judging's own among them.
pub fn reason_name(number: u32) -> Option<&'static str> {
    match number {
        NO_ROOM => Some("NO_ROOM"),
        SPENT => Some("SPENT"),
        GONE => Some("GONE"),
        NO_ROW => Some("NO_ROW"),
        ASTRAY => Some("ASTRAY"),
        TOO_BIG => Some("TOO_BIG"),
        PLACES => Some("PLACES"),
        WIDE => Some("WIDE"),
        _ => Reason::of_number(number).map(Reason::name),
    }
}

/// A load number, and how many rows the desk holds.
#[derive(Clone, Copy, Debug, PartialEq, Eq)]
pub struct Desk {
    pub load: u32,
    pub count: u32,
}

pub const FRESH: Desk = Desk { load: 0, count: 0 };

/// A load number, and a row's number from 0.
#[derive(Clone, Copy, Debug, PartialEq, Eq)]
pub struct Ticket {
    pub load: u32,
    pub row: u32,
}

/// All that goes into a placing.
#[derive(Clone, Debug)]
pub struct Placing {
    pub desk: Desk,
    pub feed: Bytes,
    pub message: u64,
    pub table: Vec<u8>,
}

/// All that comes out of a placing.
#[derive(Clone, Debug, PartialEq, Eq)]
pub struct Placed {
    pub desk: Desk,
    pub reason: u32,
    pub line: u32,
    pub table: Vec<u8>,
}

/// The same but for the table: the next desk, and the reason with its line.
#[derive(Clone, Copy, Debug, PartialEq, Eq)]
pub struct Outcome {
    pub desk: Desk,
    pub reason: u32,
    pub line: u32,
}

impl Placed {
    pub fn outcome(&self) -> Outcome {
        Outcome { desk: self.desk, reason: self.reason, line: self.line }
    }
}

/// Tickets to be read one after the other, with one feed and one table.
#[derive(Clone, Debug)]
pub struct Reading {
    pub desk: Desk,
    pub feed: Bytes,
    pub table: Vec<u8>,
    pub tickets: Vec<Ticket>,
}

/// What a ticket hears: its row, or why not.
pub type Heard = Result<Row, u32>;

/// A table's whole entries, and what is left over: up to three bytes.
pub(crate) struct Image {
    entries: Vec<u32>,
    over: Vec<u8>,
}

impl Image {
    pub(crate) fn of(table: &[u8]) -> Image {
        let fours = table.chunks_exact(4);
        let over = fours.remainder().to_vec();
        // The highest byte is the last, so a number is told from there on.
        let number = |four: &[u8]| four.iter().rev().fold(0, |number, byte| 256 * number + u32::from(*byte));
        Image { entries: fours.map(number).collect(), over }
    }

    /// This image with other numbers in front; nothing if it has fewer entries than they are.
    fn under(self, front: Vec<u32>) -> Option<Image> {
        let kept = self.entries.get(front.len()..)?;
        Some(Image { entries: [&front, kept].concat(), over: self.over })
    }

    fn bytes(&self) -> Vec<u8> {
        let low_to_high = |entry: &u32| [1, 256, 65_536, 16_777_216].map(|place| (entry / place % 256) as u8);
        self.entries.iter().flat_map(low_to_high).chain(self.over.iter().copied()).collect()
    }

    /// The row with this number, if all five of its entries are here.
    fn row(&self, number: u32) -> Option<Row> {
        let mut rows = self.entries.chunks_exact(5);
        let five = rows.nth(usize::try_from(number).ok()?)?;
        Some(Row { code: five[0], group: five[1], line: five[2], start: five[3], length: five[4] })
    }
}

fn entries(row: &Row) -> [u32; 5] {
    [row.code, row.group, row.line, row.start, row.length]
}

/// What a placing comes to: the message is judged, the table filled and the desk moved on.
pub fn place(placing: &Placing) -> Placed {
    let Placing { desk, table, .. } = placing;
    // Only a desk at its top has no next number, and it stays as it is.
    let Some(next) = desk.load.checked_add(1) else {
        return Placed { desk: *desk, reason: SPENT, line: 0, table: table.clone() };
    };
    let after = |count, reason, line, table| Placed { desk: Desk { load: next, count }, reason, line, table };
    match judge(&placing.feed, placing.message) {
        Answer::Refused { reason, line } => after(0, reason.number(), small(line), table.clone()),
        Answer::Accepted(rows) => match Image::of(table).under(rows.iter().flat_map(entries).collect()) {
            None => after(0, NO_ROOM, 0, table.clone()),
            Some(image) => after(small(rows.len()), FINE, 0, image.bytes()),
        },
    }
}

fn small(number: usize) -> u32 {
    u32::try_from(number).expect("a feed within its limit has no number over 32 bits")
}

/// What each ticket hears.
pub fn read(reading: &Reading) -> Vec<Heard> {
    let image = Image::of(&reading.table);
    reading.tickets.iter().map(|ticket| hear(reading.desk, *ticket, &reading.feed, &image)).collect()
}

/// Document 01's checks in its order: the first one failed is told.
pub(crate) fn hear(desk: Desk, ticket: Ticket, feed: &[u8], image: &Image) -> Heard {
    let checks = [(ticket.load == desk.load, GONE), (ticket.row < desk.count, NO_ROW)];
    match checks.into_iter().find(|(passed, _)| !passed) {
        Some((_, reason)) => Err(reason),
        None => image.row(ticket.row).filter(|row| value(feed, row).is_some()).ok_or(ASTRAY),
    }
}

/// The numbers of the C struct; on a refusal all but the reason are 0.
pub fn as_told(heard: &Heard) -> [u32; 6] {
    match heard {
        Ok(Row { code, group, line, start, length }) => [FINE, *code, *group, *line, *start, *length],
        Err(reason) => [*reason, 0, 0, 0, 0, 0],
    }
}

/// The part of the feed that a row speaks of, if all of it is there.
pub fn value<'f>(feed: &'f [u8], row: &Row) -> Option<&'f [u8]> {
    let start = row.start as usize;
    feed.get(start..start + row.length as usize)
}

#[cfg(test)]
mod tests {
    use super::*;

    const ONE: Row = Row { code: 1, group: 2, line: 3, start: 4, length: 0x0506_0708 };

    #[test]
    fn an_image_comes_back_as_it_was() {
        for size in 0..17 {
            let table: Vec<u8> = (0..size).map(|at| at * 13 + 47).collect();
            let image = Image::of(&table);
            assert_eq!((image.entries.len(), image.over.len()), (usize::from(size / 4), usize::from(size % 4)));
            assert_eq!(image.bytes(), table);
        }
    }

    #[test]
    fn entries_are_low_byte_first() {
        assert_eq!(Image::of(&[1, 2, 3, 4, 255, 0, 0, 0, 255, 255, 255, 255, 9]).entries, [0x0403_0201, 0xFF, u32::MAX]);
        let image = Image::of(&[7; 23]).under(entries(&ONE).to_vec()).expect("there is room");
        assert_eq!(image.bytes(), [1, 0, 0, 0, 2, 0, 0, 0, 3, 0, 0, 0, 4, 0, 0, 0, 8, 7, 6, 5, 7, 7, 7]);
        assert_eq!(image.row(0), Some(ONE));
        assert_eq!(image.row(1), None);
    }

    #[test]
    fn what_does_not_fit_is_not_laid() {
        for size in 0..20 {
            assert!(Image::of(&vec![7; size]).under(entries(&ONE).to_vec()).is_none());
        }
        assert!(Image::of(&[]).under(Vec::new()).is_some());
    }

    #[test]
    fn an_empty_value_may_stand_at_the_end() {
        let row = |start, length| Row { start, length, ..ONE };
        assert_eq!(value(b"abc", &row(1, 2)), Some(&b"bc"[..]));
        assert_eq!(value(b"abc", &row(3, 0)), Some(&b""[..]));
        assert_eq!(value(b"abc", &row(3, 1)), None);
        assert_eq!(value(b"abc", &row(4, 0)), None);
        assert_eq!(value(&[0; 65_534], &row(65_535, 65_535)), None);
        // Both numbers at their top are 2 to the 33rd less two, and nothing in 32 bits.
        assert_eq!(value(b"abc", &row(u32::MAX, u32::MAX)), None);
        assert_eq!(value(b"abc", &row(1, u32::MAX)), None);
        assert_eq!(value(b"abc", &row(u32::MAX, 1)), None);
    }

    #[test]
    fn every_reason_has_a_name() {
        assert!((1..=19).all(|number| reason_name(number).is_some()));
        assert!([0, 20, u32::MAX].into_iter().all(|number| reason_name(number).is_none()));
    }
}
