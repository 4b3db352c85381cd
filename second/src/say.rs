//! Says a number as a whole number of units of a decimal place. It is done on the digits as they would stand on paper: the period moves one place
//! after the other, what is missing is a zero, and what stands before the period in the end is the answer, rounded by the digit after it.

use crate::desk::{FINE, PLACES, TOO_BIG};
use crate::judge::{is_number, Reason};
use std::collections::VecDeque;

/// All that goes into a saying.
#[derive(Clone, Debug)]
pub struct Saying {
    pub text: Vec<u8>,
    pub decimals: u32,
}

/// All that comes out of a saying; the units are 0 on a refusal.
#[derive(Clone, Copy, Debug, PartialEq, Eq)]
pub struct Said {
    pub reason: u32,
    pub units: i64,
}

/// The greatest count of decimals that is answered.
const MOST_DECIMALS: u32 = 6;

/// The digits of the greatest answer, of either sign.
const GREATEST: &[u8] = b"1000000000000000";

pub const NO_NUMBER: Said = refused(Reason::Value as u32);
pub const TOO_MANY_PLACES: Said = refused(PLACES);
pub const TOO_GREAT: Said = refused(TOO_BIG);

const fn refused(reason: u32) -> Said {
    Said { reason, units: 0 }
}

/// What a saying comes to; the count of decimals is looked at before the text.
pub fn say(saying: &Saying) -> Said {
    if saying.decimals > MOST_DECIMALS {
        return TOO_MANY_PLACES;
    }
    if !is_number(&saying.text) {
        return NO_NUMBER;
    }
    let (minus, mut paper, exponent) = read(&saying.text);
    paper.move_period(exponent + saying.decimals as i32);
    match units(&paper.rounded()) {
        Some(units) => Said { reason: FINE, units: if minus { -units } else { units } },
        None => TOO_GREAT,
    }
}

/// The digits before the period and those after it, as they stand on paper.
struct Paper {
    before: Vec<u8>,
    after: VecDeque<u8>,
}

impl Paper {
    /// Moves the period so many places to the right, or to the left.
    fn move_period(&mut self, places: i32) {
        for _ in 0..places {
            let digit = self.after.pop_front().unwrap_or(b'0');
            self.before.push(digit);
        }
        for _ in places..0 {
            let digit = self.before.pop().unwrap_or(b'0');
            self.after.push_front(digit);
        }
    }

    /// The digits before the period, one more if at least a half stands after it; the sign has no part in this, so halves go away from zero.
    fn rounded(self) -> Vec<u8> {
        let is_up = self.after.front().is_some_and(|digit| *digit >= b'5');
        if is_up {
            one_more(self.before)
        } else {
            self.before
        }
    }
}

/// Nines at the end become zeros, and the digit before them gets one more; where there is none, a one goes in front.
fn one_more(mut digits: Vec<u8>) -> Vec<u8> {
    let nines = digits.iter().rev().take_while(|digit| **digit == b'9').count();
    let kept = digits.len() - nines;
    digits[kept..].fill(b'0');
    match digits[..kept].last_mut() {
        Some(digit) => *digit += 1,
        None => digits.insert(0, b'1'),
    }
    digits
}

/// The whole number that digits say, if it is not too great; without leading zeros they compare by length, then as text.
fn units(digits: &[u8]) -> Option<i64> {
    let zeros = digits.iter().take_while(|digit| **digit == b'0').count();
    let rest = &digits[zeros..];
    ((rest.len(), rest) <= (GREATEST.len(), GREATEST)).then(|| rest.iter().fold(0, |units, digit| units * 10 + i64::from(digit - b'0')))
}

/// Whether there is a minus, the digits, and how far the exponent moves the period. The text is a number.
fn read(text: &[u8]) -> (bool, Paper, i32) {
    let (minus, body) = without_sign(text);
    let mut halves = body.splitn(2, |byte| matches!(byte, b'E' | b'e'));
    let mantissa = halves.next().unwrap_or_default();
    let mut sides = mantissa.splitn(2, |byte| *byte == b'.');
    let before = sides.next().unwrap_or_default().to_vec();
    let after = sides.next().unwrap_or_default().iter().copied().collect();
    (minus, Paper { before, after }, halves.next().map_or(0, exponent))
}

fn without_sign(text: &[u8]) -> (bool, &[u8]) {
    match text {
        [sign @ (b'+' | b'-'), rest @ ..] => (*sign == b'-', rest),
        _ => (false, text),
    }
}

/// An exponent has at most three digits.
fn exponent(text: &[u8]) -> i32 {
    let (minus, digits) = without_sign(text);
    let size = digits.iter().fold(0, |size, digit| size * 10 + i32::from(digit - b'0'));
    if minus {
        -size
    } else {
        size
    }
}

#[cfg(test)]
mod tests {
    use super::*;

    fn said(text: &str, decimals: u32) -> Said {
        say(&Saying { text: text.as_bytes().to_vec(), decimals })
    }

    fn fine(units: i64) -> Said {
        Said { reason: 0, units }
    }

    #[test]
    fn the_period_moves_over_digits_that_are_not_there() {
        let moved = |places| {
            let mut paper = Paper { before: b"12".to_vec(), after: b"34".iter().copied().collect() };
            paper.move_period(places);
            let sides = [paper.before, paper.after.into_iter().collect()].map(|side| String::from_utf8(side).unwrap());
            sides.join(".")
        };
        assert_eq!([-4, -2, -1, 0, 1, 2, 4].map(moved), [".001234", ".1234", "1.234", "12.34", "123.4", "1234.", "123400."]);
    }

    #[test]
    fn one_more_is_carried() {
        let more = |digits: &str| String::from_utf8(one_more(digits.as_bytes().to_vec())).unwrap();
        assert_eq!(["", "0", "9", "09", "129", "1299", "999"].map(more), ["1", "1", "10", "10", "130", "1300", "1000"]);
    }

    #[test]
    fn units_end_at_the_limit() {
        assert_eq!(units(b""), Some(0));
        assert_eq!(units(b"0000000000000000000000012"), Some(12));
        assert_eq!(units(b"999999999999999"), Some(999_999_999_999_999));
        assert_eq!(units(b"01000000000000000"), Some(1_000_000_000_000_000));
        assert_eq!(units(b"1000000000000001"), None);
        assert_eq!(units(b"10000000000000000"), None);
    }

    #[test]
    fn places_are_looked_at_first_and_then_the_text() {
        assert_eq!(said("-0.4", 0), fine(0));
        assert_eq!(said("-0.5", 0), fine(-1));
        assert_eq!(said("1.0E999", 6), Said { reason: 17, units: 0 });
        assert_eq!(said("x", 6), Said { reason: 8, units: 0 });
        assert_eq!(said("x", 7), Said { reason: 18, units: 0 });
        assert_eq!(said("1.5", u32::MAX), Said { reason: 18, units: 0 });
    }

    #[test]
    fn an_exponent_moves_the_period() {
        assert_eq!(said("-1.25E+002", 1), fine(-1_250));
        assert_eq!(said("1.25e-2", 3), fine(13));
        assert_eq!(said("9.9E-999", 6), fine(0));
        assert_eq!(said("0.000000000000001E21", 6), fine(1_000_000_000_000));
    }
}
