//! Cases about feeds of a whole day: more rows, lines and groups than 16 bits count, and messages as long as the greatest feed.

use super::desks::{desk, lent, over, DeskCases, ReadCase};
use super::sending::SendBook;
use super::{oem, opm, row, Book, Want};
use crate::bytes::Bytes;
use crate::desk::{Placed, Reading, Ticket, FINE, FRESH, NO_ROOM, NO_ROW};
use crate::judge::Reason::*;

/// What an OEM of a day begins with: 212 bytes, twelve lines, twelve rows.
fn head() -> Vec<u8> {
    oem().put(11, "STOP_TIME=2000-009T00:00:00").drop(13).ended(b"\n")
}

/// The epoch of a second after the first one, as day of the year and clock.
fn epoch(second: usize) -> String {
    let (day, clock) = (1 + second / 86_400, second % 86_400);
    format!("2000-{day:03}T{:02}:{:02}:{:02}", clock / 3_600, clock / 60 % 60, clock % 60)
}

/// An OEM with a state for each of so many seconds, each a line of 30 bytes.
pub(super) fn seconds(count: usize) -> Vec<u8> {
    [head(), (0..count).map(|at| format!("{} 1 2 3 4 5 6\n", epoch(at))).collect::<String>().into_bytes()].concat()
}

/// Its rows: those of the head, and seven for each state.
pub(super) fn second_rows(count: usize) -> Vec<[u32; 5]> {
    let states = (0..count as u32).flat_map(|at| {
        let (line, start) = (13 + at, 212 + 30 * at);
        let number = move |field: u32| [10 + field, 1, line, start + 18 + 2 * field, 1];
        [[9, 1, line, start, 17]].into_iter().chain((0..6).map(number))
    });
    super::FULL_ROWS[..12].iter().copied().chain(states).collect()
}

/// So many states of 30 bytes fill a feed but for 13 bytes: nearly as many rows as a message can have.
const MOST_STATES: usize = 559_233;

/// The rows of lines that have nothing but a keyword, `=` and a value, and an LF.
fn tight_rows(feed: &[u8], codes: impl IntoIterator<Item = u32>) -> Vec<[u32; 5]> {
    let mut at = 0;
    let mut rows = Vec::new();
    for ((number, line), code) in (1..).zip(feed.split(|byte| *byte == b'\n')).zip(codes) {
        let sign = line.iter().position(|byte| *byte == b'=').expect("an assignment");
        rows.push([code, 0, number, at + sign as u32 + 1, (line.len() - sign - 1) as u32]);
        at += line.len() as u32 + 1;
    }
    rows
}

const SETS: u32 = 65_537;

/// A set of 118 bytes.
const SET: &str =
    "MAN_EPOCH_IGNITION=2000-001T00:00:00\nMAN_DURATION=1\nMAN_DELTA_MASS=2\nMAN_REF_FRAME=F\nMAN_DV_1=3\nMAN_DV_2=4\nMAN_DV_3=5\n";

/// An OPM with more sets than 16 bits count; each is a group, and goes out as it came.
fn sets() -> Vec<u8> {
    [opm().ended(b"\n"), SET.repeat(SETS as usize).into_bytes()].concat()
}

/// Its rows: 20, and seven for each set.
fn set_rows() -> Vec<[u32; 5]> {
    let front = opm().ended(b"\n");
    let size = front.len() as u32;
    let set = tight_rows(SET.as_bytes(), 29..=35);
    let of_set = |number: u32| {
        let moved =
            move |[code, _, line, start, length]: [u32; 5]| [code, number + 1, 20 + 7 * number + line, size + 118 * number + start, length];
        set.clone().into_iter().map(moved)
    };
    tight_rows(&front, (1..=15).chain(24..=28)).into_iter().chain((0..SETS).flat_map(of_set)).collect()
}

/// Data lines of 172 bytes that the greatest feed has after its head; 123 bytes are left for a comment.
const STATES: usize = 97_540;

/// An OEM of 16,777,215 bytes: states as wide as they can be, one each second of a day and more, and a comment after them.
fn whole_day() -> Vec<u8> {
    let mut feed = head();
    for at in 0..STATES {
        feed.extend_from_slice(format!("{}.{at:09}", epoch(at)).as_bytes());
        (0..6).for_each(|field| feed.extend_from_slice(format!(" -{field}.{at:015}E-{:03}", at % 1_000).as_bytes()));
        feed.push(b'\n');
    }
    feed.extend_from_slice(b"COMMENT ");
    feed.resize(16_777_215, b'y');
    feed
}

/// Its rows: those of the head, seven for each state, and the comment's.
fn day_rows() -> Vec<[u32; 5]> {
    let head = super::FULL_ROWS[..12].iter().copied();
    let states = (0..STATES as u32).flat_map(|at| {
        let (line, start) = (13 + at, 212 + 172 * at);
        let number = move |field: u32| [10 + field, 1, line, start + 28 + 24 * field, 23];
        [[9, 1, line, start, 27]].into_iter().chain((0..6).map(number))
    });
    head.chain(states).chain([[45, 1, 97_553, 16_777_100, 115]]).collect()
}

fn shown(rows: &[[u32; 5]], places: &[usize]) -> Want {
    Want::Accepted { rows: rows.len(), shown: places.iter().map(|at| (*at, row(rows[*at]))).collect() }
}

pub(super) fn judged(book: &mut Book) {
    let rows = set_rows();
    assert_eq!(rows.len(), 458_779);
    // The first rows of groups 65,535 to 65,537.
    let places = [458_758, 458_765, 458_772];
    places.iter().zip(65_535..).for_each(|(at, group)| assert_eq!(rows[*at][..2], [29, group]));
    book.great("more sets than 16 bits count", sets(), shown(&rows, &[&places[..], &[0, 19, 20, 65_535, 65_536, 458_778]].concat()));
    let day = whole_day();
    assert_eq!(day[day.len() - 124..][..10], *b"\nCOMMENT y");
    let rows = day_rows();
    book.great("the greatest feed, a state each second", day.clone(), shown(&rows, &[0, 12, 18, 65_535, 65_536, 682_791, 682_792]));
    let less = day[..16_777_214].to_vec();
    book.great("one byte less than the greatest feed", less, Want::Accepted { rows: rows.len(), shown: Vec::new() });
    let late = [&day[..16_777_215 - 123], b"2000-009T00:00:01 1 2 3 4 5 6"].concat();
    book.great("a late state at the end of a great feed", late, Want::Refused(TimeOrder, 97_553));
    let mut wrong = day.clone();
    wrong[16_777_215 - 125] = b'x';
    book.great("the greatest feed, its last state wrong", wrong, Want::Refused(Value, 97_552));
    let more: Bytes = [&day[..], b"y"].concat().into();
    book.add_shared("one byte more than the greatest feed", &more, Err(FeedLong), 1, Want::Refused(FeedLong, 0));
}

pub(super) fn desks(book: &mut DeskCases) {
    for (name, feed, rows) in [
        ("more sets than 16 bits count", sets(), set_rows()),
        ("the greatest feed", whole_day(), day_rows()),
        ("nearly the most rows", seconds(MOST_STATES), second_rows(MOST_STATES)),
    ] {
        let (feed, count): (Bytes, u32) = (feed.into(), rows.len() as u32);
        let size = 20 * rows.len();
        let placed = Placed { desk: desk(1, count), reason: FINE, line: 0, table: over(&rows, size + 3) };
        let tickets = [0, 65_534, 65_535, 65_536, count - 1, count].map(|row| Ticket { load: 1, row });
        let heard = |ticket: &Ticket| rows.get(ticket.row as usize).map(|numbers| row(*numbers)).ok_or(NO_ROW);
        let want = tickets.iter().map(heard).collect();
        let reading = Reading { desk: desk(1, count), feed: feed.clone(), table: placed.table.clone(), tickets: tickets.to_vec() };
        book.place(&format!("{name}, placed"), FRESH, (feed, 1), lent(size + 3), placed);
        book.reads.push(ReadCase { name: format!("{name}, read"), reading, want });
    }
}

pub(super) fn sendings(book: &mut SendBook) {
    let day = whole_day();
    book.goes_out_into("the greatest feed", &day.clone().into(), 1, &day, day.len());
    let sets: Bytes = sets().into();
    let size = sets.len() - 1;
    book.goes_out_into("more sets than 16 bits count", &sets, 1, &sets[..size], size);
    book.falls_before("more sets than 16 bits count", &sets, 1, (NO_ROOM, 0), size - 1);
}
