//! Moves a table's entries from one width to the other: the recorded tables of two bytes an entry to those of four, and back.
//! Nothing is reckoned: a number of two bytes gains two zeros, low byte first as both are, and a number of four bytes that ends in two zeros loses
//! them. Every other one is above 65,535. Nothing is changed in place either: a moving answers with a whole new table.

use crate::desk::{FINE, NO_ROOM, WIDE};

/// Which way a table is moved.
#[derive(Clone, Copy, Debug, PartialEq, Eq)]
pub enum Way {
    Widen,
    Narrow,
}

/// All that goes into a moving: a table, and the one that its entries go into.
#[derive(Clone, Debug)]
pub struct Moving {
    pub way: Way,
    pub from: Vec<u8>,
    pub into: Vec<u8>,
}

/// All that comes out of a moving; the table that the entries came from is as it was.
#[derive(Clone, Debug, PartialEq, Eq)]
pub struct Moved {
    pub reason: u32,
    pub into: Vec<u8>,
}

impl Way {
    /// How many bytes an entry takes before, and after.
    pub fn sizes(self) -> [usize; 2] {
        match self {
            Way::Widen => [2, 4],
            Way::Narrow => [4, 2],
        }
    }
}

/// What a moving comes to.
pub fn shift(moving: &Moving) -> Moved {
    let Moving { way, from, into } = moving;
    let [before, after] = way.sizes();
    let (entries, places) = (from.chunks_exact(before), into.chunks_exact(after));
    let refused = |reason| Moved { reason, into: into.clone() };
    if entries.len() != places.len() {
        return refused(NO_ROOM);
    }
    let front = match way {
        Way::Widen => Some(entries.map(with_zeros).collect::<Vec<_>>().concat()),
        Way::Narrow => entries.map(without_zeros).collect::<Option<Vec<_>>>().map(|entries| entries.concat()),
    };
    front.map_or_else(|| refused(WIDE), |front| Moved { reason: FINE, into: [&front, places.remainder()].concat() })
}

fn with_zeros(two: &[u8]) -> [u8; 4] {
    [two[0], two[1], 0, 0]
}

/// The two low bytes, if the two high ones say nothing.
fn without_zeros(four: &[u8]) -> Option<[u8; 2]> {
    four.strip_suffix(&[0, 0])?.try_into().ok()
}

#[cfg(test)]
mod tests {
    use super::*;

    fn moved(way: Way, from: &[u8], into: &[u8]) -> (u32, Vec<u8>) {
        let Moved { reason, into } = shift(&Moving { way, from: from.to_vec(), into: into.to_vec() });
        (reason, into)
    }

    #[test]
    fn a_number_keeps_what_it_says() {
        for number in [0, 1, 255, 256, 32_768, 65_534, 65_535_u16] {
            let (two, four) = (number.to_le_bytes(), u32::from(number).to_le_bytes());
            assert_eq!(moved(Way::Widen, &two, &[7; 4]), (FINE, four.to_vec()));
            assert_eq!(moved(Way::Narrow, &four, &[7; 2]), (FINE, two.to_vec()));
        }
        for number in [65_536, 65_537, 131_072, 16_777_215, 16_777_216, u32::MAX] {
            assert_eq!(moved(Way::Narrow, &number.to_le_bytes(), &[7; 2]), (WIDE, vec![7; 2]));
        }
    }

    #[test]
    fn bytes_over_are_kept_and_not_moved() {
        for over in 0..4 {
            let into = vec![7; 4 + over];
            assert_eq!(moved(Way::Widen, &[1, 2, 3], &into), (FINE, [vec![1, 2, 0, 0], vec![7; over]].concat()));
            let from = [vec![1, 2, 0, 0], vec![255; over]].concat();
            assert_eq!(moved(Way::Narrow, &from, &[7; 3]), (FINE, vec![1, 2, 7]));
        }
    }

    #[test]
    fn the_room_is_asked_for_first() {
        assert_eq!(moved(Way::Narrow, &[255; 8], &[7; 2]), (NO_ROOM, vec![7; 2]));
        assert_eq!(moved(Way::Narrow, &[255; 8], &[7; 6]), (NO_ROOM, vec![7; 6]));
        assert_eq!(moved(Way::Narrow, &[255; 8], &[7; 4]), (WIDE, vec![7; 4]));
        assert_eq!(moved(Way::Widen, &[1; 4], &[7; 4]), (NO_ROOM, vec![7; 4]));
        assert_eq!(moved(Way::Widen, &[1; 4], &[7; 12]), (NO_ROOM, vec![7; 12]));
    }
}
