//! Makes tables to be widened and narrowed, with tables of about the length needed to go into, and foretells what comes of it.
//! They are made from their numbers, and what must come out is written from the numbers again, byte after byte, without the mover.

use crate::bytes::Bytes;
use crate::desk::{Desk, Heard, Reading, Ticket, ASTRAY, FINE, NO_ROOM, WIDE};
use crate::dice::Dice;
use crate::judge::Row;
use crate::widths::{Moved, Moving, Way};

/// A moving, and what must come of it.
pub struct Told {
    pub moving: Moving,
    pub known: Moved,
}

/// A recorded table that is widened, then narrowed back, and each row of the widened one read.
pub struct Round {
    pub widen: Told,
    pub narrow: Told,
    pub reading: Reading,
    pub heard: Vec<Heard>,
}

/// What one turn brings.
pub enum Tables {
    One(Told),
    Round(Round),
}

/// So many in a hundred turns take a recorded table there and back.
const ROUNDS: usize = 30;

const NARROW_TOP: u32 = 65_535;

/// A moving, or a whole round.
pub fn any_tables(dice: &mut Dice) -> Tables {
    if dice.percent(ROUNDS) {
        return Tables::Round(round(dice));
    }
    let way = dice.pick(&[Way::Widen, Way::Narrow, Way::Narrow]);
    let numbers = any_numbers(dice);
    let numbers = if way == Way::Narrow && dice.percent(50) { with_wide(numbers, dice) } else { numbers };
    let places = places(numbers.len(), dice);
    Tables::One(told(way, &numbers, places, dice))
}

/// Numbers of a recorded table: whole rows, and at times some past them.
fn any_numbers(dice: &mut Dice) -> Vec<u32> {
    let rows = dice.pick(&[0, 0, 1, 1, 2, 3, 5, 8, 19]);
    let past = dice.pick(&[0, 0, 1, 2, 3, 4]);
    (0..5 * rows + past).map(|_| any_narrow(dice)).collect()
}

/// A number of 16 bits, often at an edge of them.
fn any_narrow(dice: &mut Dice) -> u32 {
    let any = dice.below(65_536) as u32;
    dice.pick(&[0, 1, 255, 256, 32_767, 32_768, 65_280, 65_534, NARROW_TOP, NARROW_TOP, any, any, any, any])
}

/// A number that takes more than 16 bits, often the least or the greatest.
fn any_wide(dice: &mut Dice) -> u32 {
    let any = dice.between(65_536, u32::MAX as usize) as u32;
    dice.pick(&[65_536, 65_536, 65_537, 131_072, 16_777_215, 16_777_216, 0x8000_0000, 0xFFFF_0000, u32::MAX, any])
}

/// The same with one number or a few too wide for a narrow table; they stand anywhere, or past the whole rows alone.
fn with_wide(mut numbers: Vec<u32>, dice: &mut Dice) -> Vec<u32> {
    if dice.percent(40) {
        let whole = numbers.len() / 5 * 5;
        let past = dice.between(1, 4);
        numbers.resize_with(whole + past, || any_narrow(dice));
        let at = dice.between(whole, whole + past - 1);
        numbers[at] = any_wide(dice);
    } else if !numbers.is_empty() {
        for _ in 0..dice.pick(&[1, 1, 2, 5]) {
            let at = dice.below(numbers.len());
            numbers[at] = any_wide(dice);
        }
    }
    numbers
}

/// How many entries the other table has: mostly as many, often one more or one less.
fn places(entries: usize, dice: &mut Dice) -> usize {
    match dice.below(20) {
        0..=2 => entries + 1,
        3..=5 => entries.saturating_sub(1),
        6 => dice.below(2 * entries + 3),
        7 => dice.pick(&[0, 2 * entries, entries / 2, entries + 5]),
        _ => entries,
    }
}

/// A table of these numbers, each of so many bytes, low byte first, with some bytes over.
fn table(numbers: &[u32], size: usize, over: &[u8]) -> Vec<u8> {
    let mut bytes = Vec::with_capacity(size * numbers.len() + over.len());
    for number in numbers {
        (0..size).for_each(|byte| bytes.push((number >> (8 * byte)) as u8));
    }
    bytes.extend_from_slice(over);
    bytes
}

/// Bytes that are fewer than an entry of so many takes.
fn any_over(size: usize, dice: &mut Dice) -> Vec<u8> {
    (0..dice.below(size)).map(|_| dice.byte()).collect()
}

/// These numbers moved into a table of so many places, and what must come of it.
fn told(way: Way, numbers: &[u32], places: usize, dice: &mut Dice) -> Told {
    let [before, after] = way.sizes();
    let (from_over, into_over) = (any_over(before, dice), any_over(after, dice));
    let old: Vec<u8> = (0..after * places).map(|_| dice.byte()).collect();
    let into = [&old[..], &into_over].concat();
    let is_wide = numbers.iter().any(|number| *number > NARROW_TOP);
    let known = if places != numbers.len() {
        Moved { reason: NO_ROOM, into: into.clone() }
    } else if is_wide && way == Way::Narrow {
        Moved { reason: WIDE, into: into.clone() }
    } else {
        Moved { reason: FINE, into: table(numbers, after, &into_over) }
    };
    Told { moving: Moving { way, from: table(numbers, before, &from_over), into }, known }
}

/// There and back, and each row read; what is narrowed is what the widening must have given.
fn round(dice: &mut Dice) -> Round {
    let feed: Bytes = vec![b'x'; dice.pick(&[0, 1, 244, 65_535, 65_536, 131_070])].into();
    let mut numbers = any_numbers(dice);
    mend_spans(&mut numbers, feed.len(), dice);
    let widen = told(Way::Widen, &numbers, numbers.len(), dice);
    let mut narrow = told(Way::Narrow, &numbers, numbers.len(), dice);
    narrow.moving.from.clone_from(&widen.known.into);
    let desk = Desk { load: dice.pick(&[0, 1, 65_536, u32::MAX]), count: (numbers.len() / 5) as u32 };
    let tickets = (0..desk.count).map(|row| Ticket { load: desk.load, row }).collect();
    let heard = numbers.chunks_exact(5).map(|five| heard(five, feed.len())).collect();
    Round { reading: Reading { desk, feed, table: widen.known.into.clone(), tickets }, heard, widen, narrow }
}

/// Gives most rows a span that lies in the feed, as a placing would have.
fn mend_spans(numbers: &mut [u32], feed: usize, dice: &mut Dice) {
    let feed = feed.min(65_535);
    for five in numbers.chunks_exact_mut(5) {
        if dice.percent(70) {
            let any = dice.between(0, feed);
            let start = dice.pick(&[0, feed, any]);
            let any = dice.between(0, feed - start);
            let length = dice.pick(&[0, feed - start, any]);
            five[3..].copy_from_slice(&[start as u32, length as u32]);
        }
    }
}

/// What a row of these numbers said and must say: itself, if its span is in the feed.
fn heard(five: &[u32], feed: usize) -> Heard {
    let row = Row { code: five[0], group: five[1], line: five[2], start: five[3], length: five[4] };
    let end = u64::from(row.start) + u64::from(row.length);
    if end > feed as u64 {
        return Err(ASTRAY);
    }
    Ok(row)
}

#[cfg(test)]
mod tests {
    use super::*;
    use crate::desk::read;
    use crate::widths::shift;

    fn check(told: &Told, turn: u64) {
        assert_eq!(shift(&told.moving), told.known, "turn {turn}: {:?}", told.moving);
    }

    #[test]
    fn the_mover_answers_as_foretold() {
        let (mut rounds, mut rows) = (0, 0);
        for turn in 0..3_000 {
            match any_tables(&mut Dice::new(61, turn)) {
                Tables::One(told) => check(&told, turn),
                Tables::Round(round) => {
                    check(&round.widen, turn);
                    check(&round.narrow, turn);
                    let heard = read(&round.reading);
                    assert_eq!(heard, round.heard, "turn {turn}");
                    rounds += 1;
                    rows += heard.iter().filter(|row| row.is_ok()).count();
                }
            }
        }
        assert!(rounds > 500 && rows > 1_000, "{rounds} rounds, {rows} rows read");
    }

    #[test]
    fn what_was_widened_comes_back() {
        for turn in 0..1_000 {
            let Tables::Round(round) = any_tables(&mut Dice::new(67, turn)) else { continue };
            let back = shift(&Moving { from: shift(&round.widen.moving).into, ..round.narrow.moving.clone() });
            let whole = round.widen.moving.from.len() / 2 * 2;
            assert_eq!(back.into[..whole], round.widen.moving.from[..whole], "turn {turn}");
        }
    }
}
