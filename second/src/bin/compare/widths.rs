//! What is counted of widenings and narrowings: how the two tables lie to each other, and which numbers they have.
//! It is known by the lengths and by the bytes as they were sent, so that the mover is not asked.

use crate::shown::Shown;
use second::desk::{FINE, NO_ROOM, WIDE};
use second::widths::{Moving, Way};

/// What a moving can be counted as, in the words of the report.
const NAMES: [&str; 30] = [
    "widened", "narrowed", "widening NO_ROOM by one place too many", "widening NO_ROOM by one place too few",
    "narrowing NO_ROOM by one place too many", "narrowing NO_ROOM by one place too few", "WIDE",
    "WIDE by an entry past the whole rows alone", "WIDE by 65,536 alone", "WIDE by 4,294,967,295",
    "NO_ROOM for numbers that are WIDE as well", "narrowed with 65,535", "widened though the bytes are unequal",
    "narrowed though the bytes are unequal", "widened with 0 bytes over", "widened with 1 byte over", "widened with 2 bytes over",
    "widened with 3 bytes over", "narrowed with 0 bytes over", "narrowed with 1 byte over", "narrowed with 2 bytes over",
    "narrowed with 3 bytes over", "widened from a table with an odd byte", "widened from one without",
    "narrowed into a table with an odd byte", "narrowed into one without", "no entry, widened", "no entry, narrowed", "narrowed back",
    "each row read after a widening",
];

const DONE: [usize; 2] = [0, 1];
const ONE_MORE: [usize; 2] = [2, 4];
const ONE_LESS: [usize; 2] = [3, 5];
const TOO_WIDE: usize = 6;
const PAST_ROWS: usize = 7;
const LEAST_WIDE: usize = 8;
const TOP_WIDE: usize = 9;
const BOTH: usize = 10;
const NARROW_TOP: usize = 11;
const UNEQUAL: [usize; 2] = [12, 13];
const OVER: [usize; 2] = [14, 18];
const ODD: [usize; 2] = [22, 24];
const EVEN: [usize; 2] = [23, 25];
const EMPTY: [usize; 2] = [26, 27];
pub const NARROWED_BACK: usize = 28;
pub const READ: usize = 29;

/// How many movings were counted as each.
pub type Widths = Shown<{ NAMES.len() }>;

pub fn widths() -> Widths {
    Shown::new("generated widenings and narrowings by what they show", "widths", NAMES)
}

/// What a moving shows by the reason that it got.
pub fn things(moving: &Moving, reason: u32) -> Vec<usize> {
    let way = usize::from(moving.way == Way::Narrow);
    let [before, after] = moving.way.sizes();
    let (entries, places) = (moving.from.len() / before, moving.into.len() / after);
    let wide = if moving.way == Way::Narrow { wide_numbers(&moving.from) } else { Vec::new() };
    let is = |thing: usize, is_so: bool| is_so.then_some(thing);
    let things = match reason {
        FINE => done(moving, way, entries),
        WIDE => {
            let past = entries / 5 * 5;
            vec![
                Some(TOO_WIDE),
                is(PAST_ROWS, wide.iter().all(|(at, _)| *at >= past)),
                is(LEAST_WIDE, wide.iter().all(|(_, number)| *number == 65_536)),
                is(TOP_WIDE, wide.iter().any(|(_, number)| *number == u32::MAX)),
            ]
        }
        NO_ROOM => {
            vec![is(ONE_MORE[way], places == entries + 1), is(ONE_LESS[way], places + 1 == entries), is(BOTH, !wide.is_empty())]
        }
        _ => Vec::new(),
    };
    things.into_iter().flatten().collect()
}

/// What a moving shows that was done.
fn done(moving: &Moving, way: usize, entries: usize) -> Vec<Option<usize>> {
    let (narrow, wide) = if way == 0 { (&moving.from, &moving.into) } else { (&moving.into, &moving.from) };
    let has_top = way == 1 && moving.from.chunks_exact(4).any(|four| four == [255, 255, 0, 0]);
    let odd = if narrow.len() % 2 == 1 { ODD } else { EVEN };
    vec![
        Some(DONE[way]),
        Some(OVER[way] + wide.len() % 4),
        Some(odd[way]),
        (2 * narrow.len() != wide.len()).then_some(UNEQUAL[way]),
        (entries == 0).then_some(EMPTY[way]),
        has_top.then_some(NARROW_TOP),
    ]
}

/// The numbers of a wide table that are above 65,535, and which entries they are.
fn wide_numbers(table: &[u8]) -> Vec<(usize, u32)> {
    let numbers = table.chunks_exact(4).map(|four| u32::from_le_bytes([four[0], four[1], four[2], four[3]]));
    numbers.enumerate().filter(|(_, number)| *number > 65_535).collect()
}

#[cfg(test)]
mod tests {
    use super::*;
    use crate::items::generated_tables;
    use crate::moving::{compare_moved, compare_round};
    use crate::tally::Tally;
    use crate::Ask;

    fn widening(from: usize, into: usize, reason: u32) -> Vec<usize> {
        things(&Moving { way: Way::Widen, from: vec![9; from], into: vec![9; into] }, reason)
    }

    fn narrowing(numbers: &[u32], over: usize, into: usize, reason: u32) -> Vec<usize> {
        let from: Vec<u8> = numbers.iter().flat_map(|number| number.to_le_bytes()).chain(vec![9; over]).collect();
        things(&Moving { way: Way::Narrow, from, into: vec![9; into] }, reason)
    }

    #[test]
    fn what_is_done_is_counted_by_its_bytes() {
        assert_eq!(widening(4, 8, FINE), [0, 14, 23]);
        assert_eq!(widening(5, 8, FINE), [0, 14, 22, 12]);
        assert_eq!(widening(5, 10, FINE), [0, 16, 22]);
        assert_eq!(widening(1, 3, FINE), [0, 17, 22, 12, 26]);
        assert_eq!(narrowing(&[1, 2], 0, 4, FINE), [1, 18, 25]);
        assert_eq!(narrowing(&[1, 65_535], 1, 5, FINE), [1, 19, 24, 13, 11]);
        assert_eq!(narrowing(&[], 0, 0, FINE), [1, 18, 25, 27]);
    }

    #[test]
    fn a_refusal_is_counted_by_how_near_it_is() {
        assert_eq!(widening(4, 12, NO_ROOM), [2]);
        assert_eq!(widening(4, 7, NO_ROOM), [3]);
        assert_eq!(widening(4, 16, NO_ROOM), []);
        assert_eq!(narrowing(&[1, 2], 3, 6, NO_ROOM), [4]);
        assert_eq!(narrowing(&[1, 65_536], 3, 3, NO_ROOM), [5, 10]);
        assert_eq!(narrowing(&[1, 65_536], 0, 4, WIDE), [6, 7, 8]);
        assert_eq!(narrowing(&[1, 2, 3, 4, 65_536], 0, 10, WIDE), [6, 8]);
        assert_eq!(narrowing(&[1, 2, 3, 4, 5, u32::MAX], 0, 12, WIDE), [6, 7, 9]);
        assert_eq!(narrowing(&[65_537, 2, 3, 4, 5, 65_536], 0, 12, WIDE), [6]);
    }

    #[test]
    fn generated_tables_show_everything_often_enough() {
        let seed = 1;
        let mut tally = Tally::new();
        for item in (0..1_500).map(|turn| generated_tables(seed, turn)) {
            let facts = match &item.ask {
                Ask::Move(told) => compare_moved(told, true, None, &mut tally),
                Ask::Round(round) => compare_round(round, true, None, &mut tally),
                _ => panic!("tables are moved"),
            };
            assert_eq!(facts, Ok(Vec::new()), "{}", item.name);
        }
        println!("seed {seed}: {}", tally.widths.words());
        // A tenth of the turns of a whole run, and twice the floor, so that a run has some to spare.
        assert_eq!(tally.widths.rare(20), Vec::<String>::new());
    }
}
