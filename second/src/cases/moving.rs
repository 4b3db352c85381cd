//! Cases about tables that are widened and narrowed: every byte of the table that the entries go into.

use super::FULL_ROWS;
use crate::desk::{FINE, NO_ROOM, WIDE};
use crate::widths::{Moved, Moving, Way};

/// One moving, and what must come of it.
#[derive(Clone, Debug)]
pub struct MoveCase {
    pub name: String,
    pub moving: Moving,
    pub want: Moved,
}

/// All fixed cases about widening and narrowing.
pub fn movings() -> Vec<MoveCase> {
    let mut book = MoveBook { cases: Vec::new() };
    empty(&mut book);
    edges(&mut book);
    order_of_bytes(&mut book);
    spare_bytes(&mut book);
    lengths(&mut book);
    wide_places(&mut book);
    room_first(&mut book);
    full_feed(&mut book);
    great_tables(&mut book);
    book.cases
}

/// The cases as they are gathered.
struct MoveBook {
    cases: Vec<MoveCase>,
}

/// Old bytes of a table, none of them 0, and each unlike those about it, so that a touched one shows.
fn lent(size: usize) -> Vec<u8> {
    (0..size).map(|at| (at * 37 % 255) as u8 + 1).collect()
}

/// So many entries with no number above 65,535: two bytes each, or four.
fn counted(entries: usize, size: usize) -> Vec<u8> {
    (0..entries).flat_map(|at| [(at + 1) as u8, (at * 7) as u8, 0, 0].into_iter().take(size)).collect()
}

impl MoveBook {
    fn add(&mut self, name: String, way: Way, from: Vec<u8>, into: Vec<u8>, want: Moved) {
        self.cases.push(MoveCase { name, moving: Moving { way, from, into }, want });
    }

    /// A widening into a lent table of so many bytes that then begins with these.
    fn widens(&mut self, name: &str, from: &[u8], size: usize, front: &[u8]) {
        let want = Moved { reason: FINE, into: [front, &lent(size)[front.len()..]].concat() };
        self.add(format!("widened: {name}"), Way::Widen, from.to_vec(), lent(size), want);
    }

    /// The same for a narrowing.
    fn narrows(&mut self, name: &str, from: &[u8], size: usize, front: &[u8]) {
        let want = Moved { reason: FINE, into: [front, &lent(size)[front.len()..]].concat() };
        self.add(format!("narrowed: {name}"), Way::Narrow, from.to_vec(), lent(size), want);
    }

    /// A moving that leaves every byte of a lent table of so many bytes.
    fn falls(&mut self, name: &str, way: Way, from: &[u8], size: usize, reason: u32) {
        let what = if way == Way::Widen { "not widened" } else { "not narrowed" };
        self.add(format!("{what}: {name}"), way, from.to_vec(), lent(size), Moved { reason, into: lent(size) });
    }
}

/// Tables without an entry: nothing to do, and done. A wide table has none in up to 3 bytes, a narrow one none in up to 1.
fn empty(book: &mut MoveBook) {
    for narrow in 0..2 {
        for wide in 0..4 {
            let name = format!("{narrow} and {wide} bytes, no entry");
            book.widens(&name, &lent(narrow), wide, b"");
            book.narrows(&name, &lent(wide), narrow, b"");
        }
    }
}

/// One entry with a number at each edge.
fn edges(book: &mut MoveBook) {
    let fitting: [(&str, [u8; 2]); 8] = [
        ("0", [0, 0]),
        ("1", [1, 0]),
        ("255", [255, 0]),
        ("256", [0, 1]),
        ("32,767", [255, 127]),
        ("32,768", [0, 128]),
        ("65,534", [254, 255]),
        ("65,535", [255, 255]),
    ];
    for (name, [low, high]) in fitting {
        book.widens(name, &[low, high], 4, &[low, high, 0, 0]);
        book.narrows(name, &[low, high, 0, 0], 2, &[low, high]);
    }
    let too_wide: [(&str, [u8; 4]); 10] = [
        ("65,536", [0, 0, 1, 0]),
        ("65,537", [1, 0, 1, 0]),
        ("131,071", [255, 255, 1, 0]),
        ("8,388,608", [0, 0, 128, 0]),
        ("16,711,680", [0, 0, 255, 0]),
        ("16,777,215", [255, 255, 255, 0]),
        ("16,777,216", [0, 0, 0, 1]),
        ("2,147,483,648", [0, 0, 0, 128]),
        ("4,294,901,760", [0, 0, 255, 255]),
        ("4,294,967,295", [255, 255, 255, 255]),
    ];
    for (name, four) in too_wide {
        book.falls(name, Way::Narrow, &four, 2, WIDE);
        book.falls(&format!("{name} with bytes over"), Way::Narrow, &[&four[..], &[0, 0]].concat(), 3, WIDE);
    }
}

/// Entries one after the other, each low byte first.
fn order_of_bytes(book: &mut MoveBook) {
    let narrow = [1, 2, 3, 4, 5, 6];
    let wide = [1, 2, 0, 0, 3, 4, 0, 0, 5, 6, 0, 0];
    book.widens("three entries, byte by byte", &narrow, 12, &wide);
    book.narrows("three entries, byte by byte", &wide, 6, &narrow);
    // High bytes first, the same numbers would be 65,536 times as great.
    book.falls("three entries that end in bytes other than 0", Way::Narrow, &[0, 0, 1, 2, 0, 0, 3, 4, 0, 0, 5, 6], 6, WIDE);
}

/// Bytes over on either side are no entries: those of the source do not go over, those of the target are kept.
fn spare_bytes(book: &mut MoveBook) {
    for entries in [1, 2, 5, 19, 95] {
        let (narrow, wide) = (counted(entries, 2), counted(entries, 4));
        for odd in 0..2 {
            for spare in 0..4 {
                let name = format!("{entries} entries, {odd} and {spare} bytes over");
                book.widens(&name, &[&narrow[..], &vec![255; odd]].concat(), 4 * entries + spare, &wide);
                book.narrows(&name, &[&wide[..], &vec![255; spare]].concat(), 2 * entries + odd, &narrow);
            }
        }
    }
}

/// Tables of unequal length in entries, by one or by many, whatever their bytes.
fn lengths(book: &mut MoveBook) {
    for (narrow, wide) in [(0, 1), (1, 0), (1, 2), (2, 1), (4, 5), (5, 4), (5, 6), (6, 5), (5, 10), (10, 5), (95, 94), (94, 95), (3, 99)] {
        for odd in 0..2 {
            for spare in 0..4 {
                let name = format!("{narrow} entries of two bytes, {wide} of four, {odd} and {spare} bytes over");
                let from = [&counted(narrow, 2)[..], &vec![9; odd]].concat();
                book.falls(&name, Way::Widen, &from, 4 * wide + spare, NO_ROOM);
                let from = [&counted(wide, 4)[..], &vec![9; spare]].concat();
                book.falls(&name, Way::Narrow, &from, 2 * narrow + odd, NO_ROOM);
            }
        }
    }
    // As many bytes, but not as many entries.
    for size in [2, 4, 8, 20, 380] {
        book.falls(&format!("{size} bytes each"), Way::Widen, &lent(size), size, NO_ROOM);
        book.falls(&format!("{size} bytes each"), Way::Narrow, &counted(size / 4, 4), size, NO_ROOM);
    }
}

/// One number too wide among many, wherever it stands: in a row, or past the whole rows.
fn wide_places(book: &mut MoveBook) {
    for entries in [1, 4, 5, 6, 9, 10, 14] {
        for at in 0..entries {
            for (name, high) in [("65,536 more", [1, 0]), ("all bits", [255, 255]), ("16,777,216 more", [0, 1])] {
                let mut from = counted(entries, 4);
                from[4 * at + 2..4 * at + 4].copy_from_slice(&high);
                let past = if at >= entries / 5 * 5 { ", past the whole rows" } else { "" };
                let name = format!("{name} at entry {at} of {entries}{past}");
                book.falls(&name, Way::Narrow, &from, 2 * entries + at % 2, WIDE);
            }
        }
    }
    // What would be too wide stands in bytes that are no entry.
    for spare in 1..4 {
        let from = [&counted(5, 4)[..], &vec![255; spare]].concat();
        book.narrows(&format!("{spare} bytes over, all of them 255"), &from, 10, &counted(5, 2));
    }
}

/// NO_ROOM comes before WIDE.
fn room_first(book: &mut MoveBook) {
    for (entries, places) in [(1, 0), (1, 2), (5, 4), (5, 6), (6, 5), (6, 7), (10, 5), (2, 95)] {
        for odd in 0..2 {
            let name = format!("{entries} entries too wide, {places} places, {odd} bytes over");
            book.falls(&name, Way::Narrow, &vec![255; 4 * entries + 3], 2 * places + odd, NO_ROOM);
        }
    }
}

/// The rows of document 01's feed: 190 bytes recorded, 380 widened.
fn full_feed(book: &mut MoveBook) {
    let numbers = || FULL_ROWS.into_iter().flatten();
    let narrow: Vec<u8> = numbers().flat_map(|number| [(number % 256) as u8, (number / 256) as u8]).collect();
    let wide: Vec<u8> = numbers().flat_map(|number| [(number % 256) as u8, (number / 256) as u8, 0, 0]).collect();
    assert_eq!((narrow.len(), wide.len()), (190, 380));
    for size in [380, 381, 382, 383] {
        book.widens(&format!("the feed in full, into {size} bytes"), &narrow, size, &wide);
    }
    for size in [0, 189, 190, 376, 377, 378, 379, 384, 400] {
        book.falls(&format!("the feed in full, into {size} bytes"), Way::Widen, &narrow, size, NO_ROOM);
    }
    for size in [190, 191] {
        book.narrows(&format!("the feed in full, into {size} bytes"), &wide, size, &narrow);
    }
    for size in [0, 95, 188, 189, 192, 380] {
        book.falls(&format!("the feed in full, into {size} bytes"), Way::Narrow, &wide, size, NO_ROOM);
    }
}

/// Tables whose length, or count of entries, does not fit 16 bits.
fn great_tables(book: &mut MoveBook) {
    for entries in [16_383, 16_384, 32_768, 65_535, 65_536, 65_537, 131_075] {
        let (narrow, mut wide) = (counted(entries, 2), counted(entries, 4));
        let name = format!("{entries} entries");
        book.widens(&name, &narrow, 4 * entries + 1, &wide);
        book.narrows(&name, &wide, 2 * entries, &narrow);
        book.falls(&format!("{name}, one place more"), Way::Widen, &narrow, 4 * entries + 4, NO_ROOM);
        book.falls(&format!("{name}, one place less"), Way::Narrow, &wide, 2 * entries - 1, NO_ROOM);
        wide[4 * entries - 2] = 1;
        book.falls(&format!("{name}, the last too wide"), Way::Narrow, &wide, 2 * entries + 1, WIDE);
    }
    // 65,536 entries more or less are none in 16 bits.
    book.falls("65,537 entries, 1 place", Way::Widen, &counted(65_537, 2), 4, NO_ROOM);
    book.falls("65,537 entries, 1 place", Way::Narrow, &counted(65_537, 4), 2, NO_ROOM);
    book.falls("1 entry, 65,537 places", Way::Widen, &counted(1, 2), 4 * 65_537, NO_ROOM);
    book.falls("1 entry, 65,537 places", Way::Narrow, &counted(1, 4), 2 * 65_537, NO_ROOM);
}
