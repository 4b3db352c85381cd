//! Weighs what was said of a number by the words of request (v): its distance from the exact decimal, a fraction of two whole numbers, is at most
//! half a unit, and at just half a unit it lies farther from zero. The text is read in a way of its own, and the whole numbers are binary, so
//! nothing of the sayer is asked.

use crate::desk::FINE;
use crate::natural::Natural;
use crate::say::{Said, Saying, NO_NUMBER, TOO_GREAT, TOO_MANY_PLACES};
use std::cmp::Ordering;

/// The greatest size of an answer.
pub const LIMIT: u64 = 1_000_000_000_000_000;

/// What a saying is due.
pub enum Due {
    Places,
    Value,
    /// TOO_BIG or an answer, by the exact number.
    Number(Exact),
}

/// Finds what a saying is due; the count of decimals is looked at first.
pub fn weigh(saying: &Saying) -> Due {
    match saying.decimals {
        0..=6 => number(&saying.text).map_or(Due::Value, |number| Due::Number(Exact::of(number, saying.decimals as usize))),
        _ => Due::Places,
    }
}

impl Due {
    /// Why this must not be said, in plain words.
    pub fn fault(&self, said: Said) -> Option<&'static str> {
        let only = |due: Said, words| (said != due).then_some(words);
        match self {
            Due::Places => only(TOO_MANY_PLACES, "the decimals are over 6, so PLACES is due"),
            Due::Value => only(NO_NUMBER, "the text is no number, so VALUE is due"),
            Due::Number(exact) if exact.is_too_big() => {
                only(TOO_GREAT, "the number is half a unit or more over the limit, so TOO_BIG is due")
            }
            Due::Number(_) if said.reason != FINE => Some("the number is within the limit, so an answer is due"),
            Due::Number(exact) => exact.rounding(said.units).is_none().then_some("the answer is not the number rounded"),
        }
    }
}

/// A number's text, taken apart.
pub struct Number {
    pub minus: bool,
    /// The digits on both sides of the period, each a value from 0 to 9.
    pub digits: Vec<u8>,
    /// How many of them stand after the period.
    after: usize,
    /// The exponent's minus and digits, if there is one.
    pub exponent: Option<(bool, Vec<u8>)>,
}

/// Takes a number apart from the left; `None` if it isn't one by document 01.
pub fn number(text: &[u8]) -> Option<Number> {
    let mut left = text;
    let minus = take_sign(&mut left);
    let before = take_digits(&mut left);
    let after = take(&mut left, b".").then(|| take_digits(&mut left));
    let exponent = take(&mut left, b"Ee").then(|| (take_sign(&mut left), take_digits(&mut left)));
    let is_right = match (&after, &exponent) {
        (None, None) => (1..=16).contains(&before.len()),
        (Some(after), None) => !before.is_empty() && !after.is_empty() && before.len() + after.len() <= 16,
        (Some(after), Some((_, digits))) => before.len() == 1 && (1..=15).contains(&after.len()) && (1..=3).contains(&digits.len()),
        (None, Some(_)) => false,
    };
    let after = after.unwrap_or_default();
    (is_right && left.is_empty()).then(|| Number { minus, digits: [&before[..], &after].concat(), after: after.len(), exponent })
}

/// Takes one of these bytes, if one comes next.
fn take(left: &mut &[u8], bytes: &[u8]) -> bool {
    let comes = left.first().is_some_and(|byte| bytes.contains(byte));
    *left = &left[usize::from(comes)..];
    comes
}

/// Takes a sign, if one comes next; true if it is a minus.
fn take_sign(left: &mut &[u8]) -> bool {
    let minus = left.starts_with(b"-");
    take(left, b"+-");
    minus
}

/// Takes as many digits as come next.
fn take_digits(left: &mut &[u8]) -> Vec<u8> {
    let mut digits = Vec::new();
    while let Some((digit @ b'0'..=b'9', rest)) = left.split_first() {
        digits.push(digit - b'0');
        *left = rest;
    }
    digits
}

/// How an answer lies to the number that it is said for.
#[derive(Clone, Copy, Debug, PartialEq, Eq)]
pub enum Rounding {
    /// It is the number.
    Exact,
    /// Half a unit farther from zero.
    Half,
    /// Less than half a unit nearer to zero; just so, if one more in the number's last digit makes half a unit or more.
    Down { just: bool },
    /// Less than half a unit farther from zero; just so, if one less in the number's last digit makes half a unit or more.
    Up { just: bool },
}

/// A number's size in units of a decimal place, as a fraction of two whole numbers.
pub struct Exact {
    pub number: Number,
    over: Natural,
    under: Natural,
    /// What one more in the number's last digit adds to `over`.
    step: Natural,
}

impl Exact {
    fn of(number: Number, decimals: usize) -> Exact {
        let (down, size) = number
            .exponent
            .as_ref()
            .map_or((false, 0), |(minus, digits)| (*minus, digits.iter().fold(0, |size, digit| size * 10 + usize::from(*digit))));
        let (greater, lesser) = if down { (0, size) } else { (size, 0) };
        let step = Natural::power_of_ten(decimals + greater);
        let over = Natural::of_decimals(&number.digits).times(&step);
        let under = Natural::power_of_ten(number.after + lesser);
        Exact { number, over, under, step }
    }

    /// Whether it is just this whole number of units, of either sign.
    pub fn is(&self, size: u64) -> bool {
        self.over == Natural::from(size).times(&self.under)
    }

    /// Whether it rounds to more than the limit: half a unit over it, or more.
    pub fn is_too_big(&self) -> bool {
        self.over.twice() >= Natural::from(2 * LIMIT + 1).times(&self.under)
    }

    /// How an answer lies to this number; nothing if the number does not round to it.
    pub fn rounding(&self, units: i64) -> Option<Rounding> {
        if units != 0 && (units < 0) != self.number.minus {
            return None;
        }
        let answer = Natural::from(units.unsigned_abs()).times(&self.under);
        let twice = answer.apart(&self.over).twice();
        let just = twice < self.under && self.under.apart(&twice) <= self.step.twice();
        match (answer.cmp(&self.over), twice.cmp(&self.under)) {
            (Ordering::Equal, _) => Some(Rounding::Exact),
            (Ordering::Greater, Ordering::Equal) => Some(Rounding::Half),
            (Ordering::Greater, Ordering::Less) => Some(Rounding::Up { just }),
            (Ordering::Less, Ordering::Less) => Some(Rounding::Down { just }),
            _ => None,
        }
    }
}

#[cfg(test)]
mod tests {
    use super::*;
    use crate::judge::is_number;
    use crate::say::say;

    fn saying(text: &[u8], decimals: u32) -> Saying {
        Saying { text: text.to_vec(), decimals }
    }

    fn rounding(text: &str, decimals: u32, units: i64) -> Option<Rounding> {
        match weigh(&saying(text.as_bytes(), decimals)) {
            Due::Number(exact) => exact.rounding(units),
            _ => panic!("{text} is a number"),
        }
    }

    #[test]
    fn an_answer_lies_by_its_distance() {
        assert_eq!(rounding("7", 0, 7), Some(Rounding::Exact));
        assert_eq!(rounding("-7.10", 1, -71), Some(Rounding::Exact));
        assert_eq!(rounding("2.5", 0, 3), Some(Rounding::Half));
        assert_eq!(rounding("-2.5", 0, -3), Some(Rounding::Half));
        assert_eq!(rounding("0.4", 0, 0), Some(Rounding::Down { just: true }));
        assert_eq!(rounding("0.40", 0, 0), Some(Rounding::Down { just: false }));
        assert_eq!(rounding("0.3", 0, 0), Some(Rounding::Down { just: false }));
        assert_eq!(rounding("-1.6", 0, -2), Some(Rounding::Up { just: true }));
        assert_eq!(rounding("1.7", 0, 2), Some(Rounding::Up { just: false }));
        assert_eq!(rounding("4.999999999999999E-1", 0, 0), Some(Rounding::Down { just: true }));
        assert_eq!(rounding("5.000000000000001E-1", 0, 1), Some(Rounding::Up { just: true }));
        assert_eq!(rounding("1.0E-999", 6, 0), Some(Rounding::Down { just: false }));
        for (text, units) in [("2.5", 2), ("-2.5", -2), ("2.5", -3), ("2.4", 3), ("2.6", 2), ("7", -7), ("7", 8), ("0.5", 0), ("0", 1)] {
            assert_eq!(rounding(text, 0, units), None, "{text} is not {units}");
        }
    }

    #[test]
    fn only_what_is_due_has_no_fault() {
        let due = |text: &str, decimals, reason, units| weigh(&saying(text.as_bytes(), decimals)).fault(Said { reason, units }).is_none();
        assert!(due("x", 7, 18, 0) && !due("x", 7, 8, 0) && !due("1", 7, 18, 1) && !due("1", 7, 0, 10_000_000));
        assert!(due("x", 6, 8, 0) && !due("x", 6, 18, 0) && !due("x", 6, 8, 1) && !due("x", 6, 0, 0));
        assert!(due("1.0E10", 6, 17, 0) && !due("1.0E10", 6, 8, 0) && !due("1.0E10", 6, 17, 1));
        assert!(!due("1.0E10", 6, 0, 10_000_000_000_000_000));
        assert!(due("1.0E9", 6, 0, 1_000_000_000_000_000) && !due("1.0E9", 6, 17, 0));
        assert!(due("-0.4", 0, 0, 0) && !due("-0.4", 0, 0, -1) && !due("-0.4", 0, 0, 1) && !due("-0.4", 0, 8, 0));
    }

    #[test]
    fn half_a_unit_over_the_limit_is_too_big() {
        // No text has so many digits, so only the rule itself can be tried.
        let is_too_big = |digits: &str, after| {
            let digits = digits.bytes().map(|byte| byte - b'0').collect();
            Exact::of(Number { minus: true, digits, after, exponent: None }, 0).is_too_big()
        };
        assert!(is_too_big("10000000000000005", 1) && is_too_big("1000000000000000500", 3));
        assert!(!is_too_big("10000000000000004", 1) && !is_too_big("1000000000000000499", 3));
    }

    /// Every text of so many of these bytes.
    fn each_text(bytes: &[u8], length: u32, mut hear: impl FnMut(&[u8])) {
        for turn in 0..bytes.len().pow(length) {
            let text: Vec<u8> = (0..length).map(|place| bytes[turn / bytes.len().pow(place) % bytes.len()]).collect();
            hear(&text);
        }
    }

    #[test]
    fn both_readings_know_the_same_short_numbers() {
        let mut numbers = 0;
        for length in 0..=6 {
            each_text(b"+-.05e ", length, |text| {
                assert_eq!(number(text).is_some(), is_number(text), "{}", text.escape_ascii());
                numbers += usize::from(is_number(text));
            });
        }
        assert!(numbers > 500, "{numbers} numbers");
    }

    #[test]
    fn both_readings_know_the_same_counts_of_digits() {
        for (before, after) in (0..20).flat_map(|before| (0..20).map(move |after| (before, after))) {
            for tail in ["", "E", "e0", "E-00", "e+000", "E0000"] {
                for period in ["", "."] {
                    let text = format!("{}{period}{}{tail}", "7".repeat(before), "8".repeat(after));
                    assert_eq!(number(text.as_bytes()).is_some(), is_number(text.as_bytes()), "{text}");
                }
            }
        }
    }

    #[test]
    fn the_sayer_has_no_fault_on_short_texts() {
        for length in 0..=4 {
            each_text(b"+-.04569E", length, |text| {
                for decimals in 0..=2 {
                    let saying = saying(text, decimals);
                    assert_eq!(weigh(&saying).fault(say(&saying)), None, "{} at {decimals}", text.escape_ascii());
                }
            });
        }
    }

    #[test]
    fn no_other_answer_is_due() {
        for text in ["0", "-0.4", "0.5", "-0.5", "2.5", "-2.4999", "9.5E-1", "1.0E-999", "999999999999999.5", "-1000000000000000"] {
            let saying = saying(text.as_bytes(), 0);
            let (due, said) = (weigh(&saying), say(&saying));
            assert_eq!(due.fault(said), None, "{text}");
            for other in [said.units - 1, said.units + 1, said.units - 2, said.units + 2, -said.units] {
                assert!(other == said.units || due.fault(Said { units: other, ..said }).is_some(), "{text} is not {other}");
            }
        }
    }
}
