//! Cases about placings and tickets: what a placing leaves of desk and table, and what a ticket hears.

use super::day;
use super::degree::{with, DEGREE, METHOD};
use super::{joined_sheets, oem, opm, row, wide_oem, FULL_ROWS};
use crate::bytes::Bytes;
use crate::desk::{Desk, Heard, Placed, Placing, Reading, Ticket, ASTRAY, FINE, FRESH, GONE, NO_ROOM, NO_ROW, SPENT};
use crate::judge::Reason::{self, *};

/// One placing, and what must come of it, down to every byte of the table.
#[derive(Clone, Debug)]
pub struct PlaceCase {
    pub name: String,
    pub placing: Placing,
    pub want: Placed,
}

/// Tickets, and what each must hear.
#[derive(Clone, Debug)]
pub struct ReadCase {
    pub name: String,
    pub reading: Reading,
    pub want: Vec<Heard>,
}

/// The cases as they are gathered.
#[derive(Debug, Default)]
pub struct DeskCases {
    pub placings: Vec<PlaceCase>,
    pub reads: Vec<ReadCase>,
}

/// All fixed cases about placings and tickets.
pub fn desks() -> DeskCases {
    let mut book = DeskCases::default();
    room(&mut book);
    high_bytes(&mut book);
    great_lines(&mut book);
    great_tables(&mut book);
    many_rows(&mut book);
    load_numbers(&mut book);
    spent_first(&mut book);
    feed_long_next(&mut book);
    messages(&mut book);
    wrong_messages(&mut book);
    degrees(&mut book);
    own_rows(&mut book);
    other_loads(&mut book);
    rows_past_the_count(&mut book);
    after_refusals(&mut book);
    tables_cut(&mut book);
    rows_far_out(&mut book);
    feeds_cut(&mut book);
    strange_tables(&mut book);
    order_of_reading(&mut book);
    day::desks(&mut book);
    book
}

pub(super) const TOP: u32 = 4_294_967_295;

/// The desk after the feed in full was placed on a fresh one.
pub(super) const FULL: Desk = Desk { load: 1, count: 19 };

pub(super) fn desk(load: u32, count: u32) -> Desk {
    Desk { load, count }
}

pub(super) fn full() -> Vec<u8> {
    oem().into()
}

/// The feed in full or another one, filled with LF up to one byte more than the limit.
pub(super) fn too_long(head: Vec<u8>) -> Bytes {
    Bytes::padded(head, 16_777_216, b'\n')
}

/// Old bytes of a table, each unlike those about it, so that a touched one shows.
pub(super) fn lent(size: usize) -> Vec<u8> {
    (0..size).map(|at| (at * 37 + 11) as u8).collect()
}

/// A lent table of this size with rows over its front.
pub(super) fn over(rows: &[[u32; 5]], size: usize) -> Vec<u8> {
    let front: Vec<u8> = rows.iter().flatten().flat_map(|number| number.to_le_bytes()).collect();
    [&front[..], &lent(size)[front.len()..]].concat()
}

/// A table of this size after the feed in full was placed in it.
pub(super) fn filled(size: usize) -> Vec<u8> {
    over(&FULL_ROWS, size)
}

impl DeskCases {
    pub(super) fn place(&mut self, name: &str, before: Desk, (feed, message): (impl Into<Bytes>, u64), table: Vec<u8>, want: Placed) {
        let placing = Placing { desk: before, feed: feed.into(), message, table };
        self.placings.push(PlaceCase { name: name.to_string(), placing, want });
    }

    /// The feed in full on a table of this size.
    fn stands(&mut self, name: &str, before: Desk, size: usize, after: Desk) {
        let want = Placed { desk: after, reason: FINE, line: 0, table: filled(size) };
        self.place(name, before, (full(), 1), lent(size), want);
    }

    /// A placing that leaves every byte of the table.
    fn falls(&mut self, name: &str, before: Desk, asked: (impl Into<Bytes>, u64), size: usize, (after, reason, line): (Desk, u32, u32)) {
        self.place(name, before, asked, lent(size), Placed { desk: after, reason, line, table: lent(size) });
    }

    fn read(&mut self, name: &str, at: Desk, ticket: (u32, u32), (feed, table): (impl Into<Bytes>, Vec<u8>), want: Result<[u32; 5], u32>) {
        let tickets = vec![Ticket { load: ticket.0, row: ticket.1 }];
        let reading = Reading { desk: at, feed: feed.into(), table, tickets };
        self.reads.push(ReadCase { name: name.to_string(), reading, want: vec![want.map(row)] });
    }

    /// A ticket on the feed in full and its table of 380 bytes.
    fn hears(&mut self, name: &str, at: Desk, ticket: (u32, u32), want: Result<[u32; 5], u32>) {
        self.read(name, at, ticket, (full(), filled(380)), want);
    }
}

/// The feed in full needs 95 entries, which is 380 bytes; 94 and up to three bytes are too few.
fn room(book: &mut DeskCases) {
    for size in [0, 1, 2, 3, 4, 19, 20, 94, 95, 190, 191, 360, 375, 376, 377, 378, 379] {
        book.falls(&format!("no room in {size} bytes"), FRESH, (full(), 1), size, (desk(1, 0), NO_ROOM, 0));
    }
    for size in [380, 381, 382, 383, 384, 385, 399, 400, 401, 760, 1_903] {
        book.stands(&format!("room in {size} bytes"), FRESH, size, desk(1, 19));
    }
    book.falls("no room on a desk with rows", FULL, (full(), 1), 379, (desk(2, 0), NO_ROOM, 0));
    book.stands("room on a desk with rows", FULL, 381, desk(2, 19));
    book.stands("room on a desk with more rows than any table", desk(6, TOP), 380, desk(7, 19));
    let again = Placed { desk: desk(2, 19), reason: FINE, line: 0, table: filled(391) };
    book.place("the same feed over its own rows", FULL, (full(), 1), filled(391), again);
    book.falls("no room for an OPM of 20 rows", FRESH, (opm(), 1), 399, (desk(1, 0), NO_ROOM, 0));
}

/// The feed in full, so many LF and then a comment of one byte: line 14 and one more for each LF, start 252 and one more for each.
fn late_comment(endings: usize) -> Bytes {
    let mut feed = full();
    feed.resize(244 + endings, b'\n');
    feed.extend_from_slice(b"COMMENT x");
    feed.into()
}

/// Numbers over 255, byte by byte: line 65,296 is FF10, start 65,534 is FFFE. In the greatest feed they are FFFF10 and FFFFFE.
fn high_bytes(book: &mut DeskCases) {
    let line_and_start = |high| [0x10, 0xFF, high, 0, 0xFE, 0xFF, high, 0];
    for (name, endings, high, line, start) in
        [("65,535 bytes", 65_282, 0, 65_296, 65_534), ("the greatest feed", 16_776_962, 0xFF, 16_776_976, 16_777_214)]
    {
        let feed = late_comment(endings);
        let last = [&[45, 0, 0, 0, 1, 0, 0, 0][..], &line_and_start(high), &[1, 0, 0, 0]].concat();
        let table = [&filled(380)[..], &last, &lent(403)[400..]].concat();
        let want = Placed { desk: desk(1, 20), reason: FINE, line: 0, table: table.clone() };
        book.place(&format!("low byte first in {name}"), FRESH, (feed.clone(), 1), lent(403), want);
        let value = [45, 1, line, start, 1];
        book.read(&format!("low byte first in {name}, read back"), desk(1, 20), (1, 19), (feed.clone(), table.clone()), Ok(value));
        let cut = feed.cut(feed.len() - 1);
        book.read(&format!("{name}, without the last byte"), desk(1, 20), (1, 19), (cut, table), Err(ASTRAY));
    }
}

/// Lines and starts about 65,536: a number in 16 bits would be small again.
fn great_lines(book: &mut DeskCases) {
    let lines = [
        (65_283, 65_297, 65_535),
        (65_284, 65_298, 65_536),
        (65_285, 65_299, 65_537),
        (65_521, 65_535, 65_773),
        (65_522, 65_536, 65_774),
        (65_523, 65_537, 65_775),
        (131_058, 131_072, 131_310),
    ];
    for (endings, line, start) in lines {
        let feed = late_comment(endings);
        let value = [45, 1, line, start, 1];
        let rows: Vec<[u32; 5]> = FULL_ROWS.iter().copied().chain([value]).collect();
        let want = Placed { desk: desk(1, 20), reason: FINE, line: 0, table: over(&rows, 402) };
        book.place(&format!("a row at line {line} and start {start}"), FRESH, (feed.clone(), 1), lent(402), want);
        book.falls(&format!("no room for a row at line {line}"), FRESH, (feed.clone(), 1), 399, (desk(1, 0), NO_ROOM, 0));
        let mut at = |name: &str, feed: Bytes, want| {
            book.read(&format!("{name} at line {line} and start {start}"), desk(1, 20), (1, 19), (feed, over(&rows, 400)), want);
        };
        at("a row read", feed.clone(), Ok(value));
        at("a row astray", feed.cut(feed.len() - 1), Err(ASTRAY));
        at("a row astray in a feed that is short in 16 bits", feed.cut(feed.len() % 65_536), Err(ASTRAY));
    }
}

/// Tables whose length or count of entries does not fit 16 bits.
fn great_tables(book: &mut DeskCases) {
    for size in [65_535, 65_536, 65_915, 65_916, 131_072, 131_073, 150_001, 262_140, 262_143, 262_144, 262_523, 262_524, 300_003] {
        book.stands(&format!("room in {size} bytes"), FRESH, size, desk(1, 19));
    }
    book.read("the last row of a great table's rows", FULL, (1, 18), (full(), filled(150_001)), Ok(FULL_ROWS[18]));
}

/// 10,000 data lines of 30 bytes from byte 212 on: 70,012 rows, which are 4,476 in 16 bits, 350,060 entries, which are 22,380, and 1,400,240 bytes,
/// which are 23,984.
fn many_rows(book: &mut DeskCases) {
    let feed: Bytes = day::seconds(10_000).into();
    let rows = day::second_rows(10_000);
    for size in [0, 23_984, 89_520, 1_310_720, 1_400_236, 1_400_239] {
        book.falls(&format!("no room for 70,012 rows in {size} bytes"), FRESH, (feed.clone(), 1), size, (desk(1, 0), NO_ROOM, 0));
    }
    for size in [1_400_240, 1_400_243] {
        let want = Placed { desk: desk(1, 70_012), reason: FINE, line: 0, table: over(&rows, size) };
        book.place(&format!("70,012 rows in {size} bytes"), FRESH, (feed.clone(), 1), lent(size), want);
    }
    let mut at = |row: u32, size: usize, want| {
        let name = format!("row {row} of 70,012, table of {size} bytes");
        book.read(&name, desk(1, 70_012), (1, row), (feed.clone(), over(&rows, 1_400_240)[..size].to_vec()), want);
    };
    at(65_534, 1_400_240, Ok([11, 1, 9_373, 281_032, 1]));
    at(65_535, 1_400_240, Ok([12, 1, 9_373, 281_034, 1]));
    at(65_536, 1_400_240, Ok([13, 1, 9_373, 281_036, 1]));
    at(65_537, 1_400_240, Ok([14, 1, 9_373, 281_038, 1]));
    at(70_011, 1_400_240, Ok([15, 1, 10_012, 300_210, 1]));
    at(70_011, 1_400_239, Err(ASTRAY));
    at(65_536, 1_310_739, Err(ASTRAY));
    at(65_535, 1_310_720, Ok([12, 1, 9_373, 281_034, 1]));
    at(65_535, 1_310_719, Err(ASTRAY));
    at(70_012, 1_400_240, Err(NO_ROW));
}

fn load_numbers(book: &mut DeskCases) {
    let steps = [
        (0, 1),
        (1, 2),
        (255, 256),
        (65_535, 65_536),
        (2_147_483_647, 2_147_483_648),
        (4_294_967_293, 4_294_967_294),
        (4_294_967_294, TOP),
    ];
    let long = too_long(Vec::new());
    for (before, after) in steps {
        book.stands(&format!("accepted on load {before}"), desk(before, 3), 380, desk(after, 19));
        let named = |why: &str| format!("{why} on load {before}");
        book.falls(&named("no room"), desk(before, 3), (full(), 1), 376, (desk(after, 0), NO_ROOM, 0));
        book.falls(&named("no message"), desk(before, 3), (full(), 2), 380, (desk(after, 0), 2, 0));
        book.falls(&named("out of order"), desk(before, 3), (oem().twice(12), 1), 380, (desk(after, 0), 7, 13));
        book.falls(&named("short"), desk(before, 3), (oem().drop(13), 1), 380, (desk(after, 0), 11, 13));
        book.falls(&named("feed long"), desk(before, 3), (long.clone(), 1), 380, (desk(after, 0), 1, 0));
    }
    for count in [0, 1, 19, 65_536, TOP] {
        book.falls(&format!("spent with count {count}"), desk(TOP, count), (full(), 1), 800, (desk(TOP, count), SPENT, 0));
    }
    let spent = Placed { desk: desk(TOP, 19), reason: SPENT, line: 0, table: filled(382) };
    book.place("spent over its own rows", desk(TOP, 19), (opm(), 1), filled(382), spent);
}

/// Wrong messages, each with document 01's number and the line.
pub(super) fn wrong() -> [(Reason, u32, Vec<u8>); 12] {
    [
        (Long, 5, oem().put(5, format!("{:255}", "OBJECT_NAME=B")).into()),
        (Byte, 5, oem().put(5, "OBJECT_NAME=\t").into()),
        (Form, 5, oem().put(5, "OBJECT_NAME").into()),
        (Keyword, 5, oem().put(5, "NAME=B").into()),
        (Order, 13, oem().twice(12).into()),
        // A degree without INTERPOLATION, and INTERPOLATION without a degree.
        (Order, 14, wide_oem().drop(14).into()),
        (Order, 15, wide_oem().drop(15).into()),
        (Value, 5, oem().put(5, "OBJECT_NAME=").into()),
        (Unit, 10, opm().put(10, "X=1 [km]").into()),
        (TimeOrder, 11, oem().put(11, "STOP_TIME=1999-001T00:00:00").into()),
        (Short, 13, oem().drop(13).into()),
        // The fault comes after every row has been seen.
        (Form, 14, oem().add("x").into()),
    ]
}

/// SPENT comes before every other reason.
fn spent_first(book: &mut DeskCases) {
    let mut spent = |name: &str, feed: Bytes, message: u64, size: usize| {
        book.falls(&format!("spent before {name}"), desk(TOP, 19), (feed, message), size, (desk(TOP, 19), SPENT, 0));
    };
    let (full, long): (Bytes, Bytes) = (full().into(), too_long(Vec::new()));
    spent("feed long", long.clone(), 1, 380);
    spent("feed long, no message and no room", long, 0, 0);
    spent("message 0", full.clone(), 0, 380);
    spent("message 2", full.clone(), 2, 380);
    spent("the greatest message number", full.clone(), u64::MAX, 380);
    spent("an empty feed", Vec::new().into(), 1, 380);
    spent("an empty feed, message 0 and an empty table", Vec::new().into(), 0, 0);
    spent("no room", full.clone(), 1, 379);
    spent("no room at all", full, 1, 0);
    for (reason, line, feed) in wrong() {
        spent(&format!("{} at {line}", reason.name()), feed.into(), 1, 380);
    }
}

/// FEED_LONG comes before the message number, the lines and the room.
fn feed_long_next(book: &mut DeskCases) {
    for (name, head) in [("a right message", full()), ("a wrong message", oem().drop(2).into()), ("no message", Vec::new())] {
        let feed = too_long(head);
        for message in [0, 1, 2, u64::MAX] {
            for size in [0, 379, 380] {
                let name = format!("feed long with {name}, message {message}, table of {size} bytes");
                book.falls(&name, FULL, (feed.clone(), message), size, (desk(2, 0), 1, 0));
            }
        }
    }
    // 2 to the 24th more is the feed in full again in 24 bits.
    for size in [16_777_217, 16_777_459, 16_777_460, 33_554_432] {
        book.falls(&format!("feed of {size} bytes"), FULL, (Bytes::padded(full(), size, b'\n'), 1), 380, (desk(2, 0), 1, 0));
    }
}

/// Message numbers, and which message is placed.
fn messages(book: &mut DeskCases) {
    for message in [0, 2, 3, 65_536, 65_537, 4_294_967_296, 4_294_967_297, 1 << 63, (1 << 63) + 1, u64::MAX] {
        for size in [0, 379, 380] {
            let name = format!("message {message} of one, table of {size} bytes");
            book.falls(&name, FULL, (full(), message), size, (desk(2, 0), 2, 0));
        }
    }
    for message in [0, 1, u64::MAX] {
        book.falls(&format!("empty feed, message {message}"), FRESH, (Vec::new(), message), 380, (desk(1, 0), 2, 0));
        book.falls(&format!("nothing at all, message {message}"), FRESH, (Vec::new(), message), 0, (desk(1, 0), 2, 0));
    }
    let moved = |by: u32| FULL_ROWS.map(|[code, group, line, start, length]| [code, group, line, start + by, length]);
    let two = [full(), full()].concat();
    let placed = |rows: &[[u32; 5]]| Placed { desk: desk(1, 19), reason: FINE, line: 0, table: over(rows, 383) };
    book.place("the first of two", FRESH, (two.clone(), 1), lent(383), placed(&FULL_ROWS));
    book.place("the second of two", FRESH, (two.clone(), 2), lent(383), placed(&moved(244)));
    book.falls("the third of two", FRESH, (two, 3), 383, (desk(1, 0), 2, 0));
    book.place("a line before the heading", FRESH, ([b"x\n".to_vec(), full()].concat(), 1), lent(383), placed(&moved(2)));
    let pair: Vec<u8> = [oem().drop(13).into(), full()].concat();
    book.falls("a wrong message before a right one", FRESH, (pair.clone(), 1), 383, (desk(1, 0), 11, 13));
    book.place("a right message after a wrong one", FRESH, (pair, 2), lent(383), placed(&moved(212)));
}

/// A wrong message keeps the table, however much room there is, and comes before NO_ROOM.
fn wrong_messages(book: &mut DeskCases) {
    for (reason, line, feed) in wrong() {
        for size in [0, 1, 379, 380, 2_001] {
            let name = format!("{} at {line}, table of {size} bytes", reason.name());
            book.falls(&name, FULL, (feed.clone(), 1), size, (desk(2, 0), reason.number(), line));
        }
    }
}

/// The feed in full with both lines of interpolation: two rows more, and what comes after them is two lines and 45 bytes on.
fn rows_with_both() -> Vec<[u32; 5]> {
    let after = FULL_ROWS[11..].iter().map(|[code, group, line, start, length]| [*code, *group, line + 2, start + 45, *length]);
    FULL_ROWS[..11].iter().copied().chain([[42, 1, 12, 216, 7], [43, 1, 13, 245, 1]]).chain(after).collect()
}

/// Both lines of interpolation fill the table with the rest; one alone keeps it, and leaves the next message as it is.
fn degrees(book: &mut DeskCases) {
    let both = || with(&oem(), 12, &[METHOD, DEGREE]);
    let rows = rows_with_both();
    for size in [0, 380, 400, 416, 419] {
        book.falls(&format!("no room for both lines in {size} bytes"), FULL, (both(), 1), size, (desk(2, 0), NO_ROOM, 0));
    }
    for size in [420, 421, 422, 423, 840] {
        let want = Placed { desk: desk(2, 21), reason: FINE, line: 0, table: over(&rows, size) };
        book.place(&format!("both lines in {size} bytes"), FULL, (both(), 1), lent(size), want);
    }
    for (number, want) in (0..).zip(&rows) {
        let lent = (both(), over(&rows, 420));
        book.read(&format!("row {number} of a segment with both lines"), desk(2, 21), (2, number), lent, Ok(*want));
    }
    book.read("row 21 of a segment with both lines", desk(2, 21), (2, 21), (both(), over(&rows, 800)), Err(NO_ROW));
    // A degree is 23 bytes with its LF, INTERPOLATION 22.
    for (name, alone, line, by) in [("a degree", DEGREE, 12, 267), ("INTERPOLATION", METHOD, 13, 266)] {
        let wrong = || with(&oem(), 12, &[alone]);
        let pair = joined_sheets(&[wrong(), both()]);
        let moved: Vec<[u32; 5]> =
            rows.iter().map(|[code, group, line, start, length]| [*code, *group, *line, start + by, *length]).collect();
        for size in [0, 380, 399, 400, 420, 2_001] {
            let name = format!("{name} alone, table of {size} bytes");
            book.falls(&name, FULL, (wrong(), 1), size, (desk(2, 0), 7, line));
            book.falls(&format!("{name}, before both"), FULL, (pair.clone(), 1), size, (desk(2, 0), 7, line));
        }
        let want = Placed { desk: desk(2, 21), reason: FINE, line: 0, table: over(&moved, 421) };
        book.place(&format!("both lines after {name} alone"), FULL, (pair.clone(), 2), lent(421), want);
        book.falls(&format!("no room for both lines after {name} alone"), FULL, (pair, 2), 419, (desk(2, 0), NO_ROOM, 0));
    }
}

/// Each ticket of the present load hears its own row, whatever the tail of the table.
fn own_rows(book: &mut DeskCases) {
    for (number, want) in (0..).zip(FULL_ROWS) {
        book.hears(&format!("row {number} of the feed in full"), FULL, (1, number), Ok(want));
    }
    for size in [380, 381, 382, 383, 399, 400, 800, 65_536, 131_073] {
        let tickets: Vec<Ticket> = (0..20).map(|row| Ticket { load: 1, row }).collect();
        let reading = Reading { desk: FULL, feed: full().into(), table: filled(size), tickets };
        let want = FULL_ROWS.into_iter().map(|numbers| Ok(row(numbers))).chain([Err(NO_ROW)]).collect();
        book.reads.push(ReadCase { name: format!("every row and one more, table of {size} bytes"), reading, want });
    }
    for load in [2, 256, 65_536, 2_147_483_648, 4_294_967_294, TOP] {
        book.hears(&format!("a row of load {load}"), desk(load, 19), (load, 9), Ok([38, 1, 10, 156, 17]));
    }
    book.hears("the only row of a desk with one", desk(1, 1), (1, 0), Ok([36, 0, 1, 15, 3]));
}

/// Tickets of another load than the desk's.
fn other_loads(book: &mut DeskCases) {
    let mut gone = |name: &str, at: Desk, ticket: (u32, u32)| book.hears(&format!("gone: {name}"), at, ticket, Err(GONE));
    gone("the load before", desk(2, 19), (1, 0));
    gone("the load before the top", desk(TOP, 19), (4_294_967_294, 0));
    gone("the first load", desk(9, 19), (1, 18));
    gone("load 0", FULL, (0, 0));
    gone("load 0 at the top", desk(TOP, 19), (0, 0));
    gone("the next load", FULL, (2, 0));
    gone("the next load, of a fresh desk", FRESH, (1, 0));
    gone("the top load", FULL, (TOP, 0));
    gone("the top load, of a fresh desk", FRESH, (TOP, 0));
    gone("the same in 8 bits", FULL, (257, 0));
    gone("the same in 16 bits", FULL, (65_537, 0));
    gone("the same in 31 bits", FULL, (2_147_483_649, 0));
    gone("the desk's the same in 16 bits", desk(65_537, 19), (1, 0));
    gone("load and row changed for each other", desk(5, 19), (1, 5));
    gone("the desk's count for a load", desk(5, 19), (19, 5));
}

/// Rows at the count and past it.
fn rows_past_the_count(book: &mut DeskCases) {
    for (load, count) in [(0, 0), (1, 0), (1, 1), (1, 18), (1, 19), (TOP, 19)] {
        for ahead in [0, 1, 237, 256, 65_536] {
            let number = count + ahead;
            book.hears(&format!("row {number} of {count}, load {load}"), desk(load, count), (load, number), Err(NO_ROW));
        }
        book.hears(&format!("row {TOP} of {count}, load {load}"), desk(load, count), (load, TOP), Err(NO_ROW));
    }
    book.hears("the load for a row", desk(19, 19), (19, 19), Err(NO_ROW));
    book.hears("the last row number there can be", desk(1, TOP), (1, TOP), Err(NO_ROW));
    for number in [0, 1, TOP] {
        let none = (Vec::new(), Vec::new());
        book.read(&format!("row {number} of a fresh desk, nothing lent"), FRESH, (0, number), none, Err(NO_ROW));
    }
}

/// After any refusal but SPENT the tickets before it are gone, and the load that it began has no rows, though the table still holds them.
fn after_refusals(book: &mut DeskCases) {
    let table = || filled(381);
    let mut refusals: Vec<(String, Bytes, u64, u32, u32)> = vec![
        ("feed long".to_string(), too_long(full()), 1, 1, 0),
        ("no message".to_string(), full().into(), 0, 2, 0),
        ("no room".to_string(), opm().into(), 1, NO_ROOM, 0),
    ];
    refusals.extend(wrong().map(|(reason, line, feed)| (format!("{} at {line}", reason.name()), feed.into(), 1, reason.number(), line)));
    for (name, feed, message, reason, line) in refusals {
        let want = Placed { desk: desk(2, 0), reason, line, table: table() };
        book.place(&format!("rows left in the table by {name}"), FULL, (feed, message), table(), want);
    }
    book.read("the ticket before a refused placing", desk(2, 0), (1, 0), (full(), table()), Err(GONE));
    book.read("a ticket of the load that a refused placing began", desk(2, 0), (2, 0), (full(), table()), Err(NO_ROW));
    book.read("a ticket of the load after that", desk(2, 0), (3, 0), (full(), table()), Err(GONE));
    book.read("the ticket before a spent placing", desk(TOP, 19), (TOP, 0), (full(), table()), Ok([36, 0, 1, 15, 3]));
}

/// Tables cut after the placing, or lengthened: row n needs 20 bytes from 20n on.
fn tables_cut(book: &mut DeskCases) {
    let mut at = |number: u32, size: usize, want| {
        let table = filled(800)[..size].to_vec();
        book.read(&format!("row {number}, table of {size} bytes"), FULL, (1, number), (full(), table), want);
    };
    for size in [0, 1, 4, 10, 16, 17, 18, 19] {
        at(0, size, Err(ASTRAY));
    }
    for size in [20, 21, 22, 23, 24, 800] {
        at(0, size, Ok([36, 0, 1, 15, 3]));
    }
    for size in [0, 20, 36, 37, 38, 39] {
        at(1, size, Err(ASTRAY));
    }
    at(1, 40, Ok([2, 0, 2, 33, 19]));
    at(17, 359, Err(ASTRAY));
    at(17, 360, Ok([14, 1, 13, 240, 1]));
    for size in [0, 19, 190, 360, 361, 375, 376, 377, 378, 379] {
        at(18, size, Err(ASTRAY));
    }
    for size in [380, 381, 382, 383, 384, 400, 800] {
        at(18, size, Ok([15, 1, 13, 242, 1]));
    }
}

/// A count that no table holds, and rows whose place does not fit 32 bits; some would come back to a row that is there.
fn rows_far_out(book: &mut DeskCases) {
    for number in [
        19, 20, 65_535, 65_536, 65_537, 131_072, 214_748_364, 214_748_365, 214_748_366, 429_496_729, 429_496_730, 858_993_459, 858_993_460,
        1_288_490_189, 2_147_483_647, 2_147_483_648, 2_576_980_378, 3_435_973_837, 4_294_967_293, 4_294_967_294,
    ] {
        book.hears(&format!("row {number} of more rows than the table has"), desk(1, TOP), (1, number), Err(ASTRAY));
    }
    book.hears("row 18 of more rows than the table has", desk(1, TOP), (1, 18), Ok([15, 1, 13, 242, 1]));
    let longer = (full(), filled(800));
    // The bytes past the rows are numbers too, and say a start of 587,061,427.
    book.read("a row of old bytes", desk(1, 40), (1, 19), longer, Err(ASTRAY));
}

/// Feeds cut after the placing, or lengthened: a row needs the feed up to its start and length.
fn feeds_cut(book: &mut DeskCases) {
    let mut at = |number: u32, size: usize, want| {
        let feed = Bytes::padded(full(), size, b' ').cut(size);
        book.read(&format!("row {number}, feed of {size} bytes"), FULL, (1, number), (feed, filled(380)), want);
    };
    for size in [0, 1, 15, 16, 17] {
        at(0, size, Err(ASTRAY));
    }
    for size in [18, 19, 243, 244, 245, 65_534, 65_535, 65_536, 65_537, 70_000, 131_072, 16_777_215, 16_777_216, 16_777_233] {
        at(0, size, Ok([36, 0, 1, 15, 3]));
    }
    for size in [0, 3, 74, 75] {
        at(3, size, Err(ASTRAY));
    }
    // META_START has no value: its row stands when the feed ends just past the word.
    for size in [76, 77, 244, 65_536] {
        at(3, size, Ok([37, 1, 4, 76, 0]));
    }
    at(11, 210, Err(ASTRAY));
    at(11, 211, Ok([44, 1, 12, 211, 0]));
    at(12, 230, Err(ASTRAY));
    at(12, 231, Ok([9, 1, 13, 212, 19]));
    for size in [0, 1, 241, 242] {
        at(18, size, Err(ASTRAY));
    }
    for size in [243, 244, 65_536, 65_779, 131_072, 16_777_216] {
        at(18, size, Ok([15, 1, 13, 242, 1]));
    }
}

/// Tables that no placing has filled: a row is what the numbers say, and its span is looked for in the feed that is lent.
fn strange_tables(book: &mut DeskCases) {
    let mut at = |numbers: [u32; 5], size: usize, want: Result<(), u32>| {
        let lent = (Bytes::padded(Vec::new(), size, b'x'), over(&[numbers], 20));
        book.read(&format!("numbers {numbers:?}, feed of {size} bytes"), desk(7, 1), (7, 0), lent, want.map(|()| numbers));
    };
    at([0, 0, 0, 0, 0], 0, Ok(()));
    at([0, 0, 0, 0, 1], 0, Err(ASTRAY));
    at([0, 0, 0, 1, 0], 0, Err(ASTRAY));
    at([0, 0, 0, 1, 0], 1, Ok(()));
    at([46, 1, 2, 0, 1], 1, Ok(()));
    at([65_535, 65_535, 65_535, 0, 0], 0, Ok(()));
    at([1, 0, 1, 65_535, 0], 65_534, Err(ASTRAY));
    at([1, 0, 1, 65_535, 0], 65_535, Ok(()));
    at([1, 0, 1, 65_535, 1], 65_535, Err(ASTRAY));
    at([1, 0, 1, 65_535, 1], 65_536, Ok(()));
    at([1, 0, 1, 1, 65_535], 65_535, Err(ASTRAY));
    at([1, 0, 1, 1, 65_535], 65_536, Ok(()));
    // 65,535 and 65,535 make 65,534 in 16 bits.
    for size in [0, 65_534, 65_535, 65_536, 131_069] {
        at([45, 1, 2, 65_535, 65_535], size, Err(ASTRAY));
    }
    for size in [131_070, 131_071, 200_000] {
        at([45, 1, 2, 65_535, 65_535], size, Ok(()));
    }
    // 32,768 and 32,768 make 0 in 16 bits.
    at([45, 1, 2, 32_768, 32_768], 65_535, Err(ASTRAY));
    at([45, 1, 2, 32_768, 32_768], 65_536, Ok(()));
    at([TOP, TOP, TOP, 0, 0], 0, Ok(()));
    at([1, 0, 1, 65_536, 0], 65_535, Err(ASTRAY));
    at([1, 0, 1, 65_536, 0], 65_536, Ok(()));
    at([1, 0, 1, 65_536, 1], 65_536, Err(ASTRAY));
    at([1, 0, 1, 0, 65_537], 65_536, Err(ASTRAY));
    at([1, 0, 1, 0, 65_537], 65_537, Ok(()));
    at([1, 0, 1, 16_777_215, 1], 16_777_215, Err(ASTRAY));
    at([1, 0, 1, 16_777_215, 1], 16_777_216, Ok(()));
    // 16,777,216 and 65,536 are nothing in 24 and in 16 bits.
    for start in [65_536, 16_777_216, 33_554_432, 2_147_483_648, TOP] {
        for size in [0, 1, 65_530] {
            at([1, 0, 1, start, 0], size, Err(ASTRAY));
            at([1, 0, 1, 0, start], size, Err(ASTRAY));
        }
    }
    // Each pair makes 0, 1 or a little less than 2 to the 32nd in 32 bits.
    for (start, length) in [(TOP, 1), (1, TOP), (TOP, 2), (2, TOP), (2_147_483_648, 2_147_483_648), (TOP, TOP), (4_294_901_760, 65_536)] {
        for size in [0, 1, 2, 70_000] {
            at([45, 1, 2, start, length], size, Err(ASTRAY));
        }
    }
    at([0x0102_0304, 0x0506_0708, 0x090A_0B0C, 0x0708, 0x090A], 4_113, Err(ASTRAY));
    at([0x0102_0304, 0x0506_0708, 0x090A_0B0C, 0x0708, 0x090A], 4_114, Ok(()));
    let row = vec![4, 3, 2, 1, 8, 7, 6, 5, 255, 254, 253, 252, 8, 7, 0, 0, 10, 9, 0, 0, 11];
    let said = [16_909_060, 84_281_096, 4_244_504_319, 1_800, 2_314];
    book.read("a row byte by byte", desk(7, 1), (7, 0), (vec![b'x'; 4_114], row), Ok(said));
}

/// GONE comes before NO_ROW, and both before ASTRAY.
fn order_of_reading(book: &mut DeskCases) {
    let nothing = || (Vec::new(), Vec::new());
    let mut at = |name: &str, at: Desk, ticket, lent, want| book.read(&format!("order of reading: {name}"), at, ticket, lent, want);
    at("gone, no row and astray", FULL, (2, 19), nothing(), Err(GONE));
    at("gone and no row", FULL, (2, 19), (full(), filled(380)), Err(GONE));
    at("gone and astray", FULL, (2, 0), nothing(), Err(GONE));
    at("no row and astray", FULL, (1, 19), nothing(), Err(NO_ROW));
    at("astray alone", FULL, (1, 0), nothing(), Err(ASTRAY));
    at("astray by the feed", FULL, (1, 0), (Vec::new(), filled(380)), Err(ASTRAY));
    at("astray by the table", FULL, (1, 0), (full(), Vec::new()), Err(ASTRAY));
    at("gone on a fresh desk", FRESH, (1, 0), nothing(), Err(GONE));
    at("no row on a fresh desk", FRESH, (0, 0), nothing(), Err(NO_ROW));
    at("gone at the top", desk(TOP, 0), (0, TOP), nothing(), Err(GONE));
    at("no row at the top", desk(TOP, 0), (TOP, TOP), nothing(), Err(NO_ROW));
}
