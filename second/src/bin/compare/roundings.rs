//! What is counted of sayings: how the answer lies to the number, and what the text looks like.
//! How it lies is known by weighing, and what a text is by the weigher's own reading, so that the sayer is not asked.

use crate::shown::{those, Shown};
use second::desk::TOO_BIG;
use second::say::{Said, Saying};
use second::weigh::{number, Due, Exact, Number, Rounding, LIMIT};

/// What a saying can be counted as, in the words of the report.
const NAMES: [&str; 37] = [
    "half above zero at 0 decimals", "half above zero at 1 decimal", "half above zero at 2 decimals", "half above zero at 3 decimals",
    "half above zero at 4 decimals", "half above zero at 5 decimals", "half above zero at 6 decimals", "half below zero at 0 decimals",
    "half below zero at 1 decimal", "half below zero at 2 decimals", "half below zero at 3 decimals", "half below zero at 4 decimals",
    "half below zero at 5 decimals", "half below zero at 6 decimals", "just below a half", "just above a half",
    "just below a half by the last of 16 digits", "just above a half by the last of 16 digits", "at the limit",
    "at the limit by rounding alone", "TOO_BIG by one unit", "TOO_BIG below zero", "0 for a text with a minus",
    "0 for a number that is not 0", "exponent of 3 digits", "exponent of 3 digits with a minus", "exponent 999", "exponent -999",
    "16 digits", "PLACES for a number", "PLACES for a text that is no number", "VALUE for the empty text", "VALUE for 17 digits",
    "VALUE for one byte too many", "VALUE for one byte too few", "VALUE for one wrong byte", "VALUE for a number with more after a blank",
];

/// The halves at 0 to 6 decimals come first, those above zero before those below it.
const HALF: usize = 0;
const HALF_BELOW_ZERO: usize = 7;
const JUST_BELOW: usize = 14;
const JUST_ABOVE: usize = 15;
const LAST_BELOW: usize = 16;
const LAST_ABOVE: usize = 17;
const AT_LIMIT: usize = 18;
const UP_TO_LIMIT: usize = 19;
const ONE_OVER: usize = 20;
const TOO_BIG_BELOW_ZERO: usize = 21;
const ZERO_WITH_MINUS: usize = 22;
const ZERO_FOR_MORE: usize = 23;
const THREE_DIGITS: usize = 24;
const THREE_DIGITS_DOWN: usize = 25;
const TOP_EXPONENT: usize = 26;
const LEAST_EXPONENT: usize = 27;
const SIXTEEN: usize = 28;
const PLACES_RIGHT: usize = 29;
const PLACES_WRONG: usize = 30;
const EMPTY: usize = 31;
const SEVENTEEN: usize = 32;
const TOO_MANY: usize = 33;
const TOO_FEW: usize = 34;
const WRONG_BYTE: usize = 35;
const MORE_AFTER: usize = 36;

/// How many sayings were counted as each.
pub type Roundings = Shown<{ NAMES.len() }>;

pub fn roundings() -> Roundings {
    Shown::new("generated sayings by what they show", "sayings", NAMES)
}

/// No number has more bytes than this: two signs, 16 digits, a period, a letter and three digits of an exponent.
const LONGEST: usize = 23;

/// What a saying shows by what it was due and what was said.
pub fn things(saying: &Saying, due: &Due, said: Said) -> Vec<usize> {
    match (due, said.reason) {
        (Due::Places, _) => vec![if number(&saying.text).is_some() { PLACES_RIGHT } else { PLACES_WRONG }],
        (Due::Value, _) => refused(&saying.text),
        (Due::Number(exact), TOO_BIG) => [look(&exact.number), too_big(exact)].concat(),
        (Due::Number(exact), _) => [look(&exact.number), answered(exact, saying.decimals as usize, said.units)].concat(),
    }
}

/// What the look of a number shows.
fn look(number: &Number) -> Vec<usize> {
    let (minus, digits) = number.exponent.as_ref().map_or((false, &[][..]), |(minus, digits)| (*minus, digits));
    those([
        (SIXTEEN, number.digits.len() == 16),
        (THREE_DIGITS, digits.len() == 3 && !minus),
        (THREE_DIGITS_DOWN, digits.len() == 3 && minus),
        (TOP_EXPONENT, digits == [9, 9, 9] && !minus),
        (LEAST_EXPONENT, digits == [9, 9, 9] && minus),
    ])
}

/// What a number that is too big shows.
fn too_big(exact: &Exact) -> Vec<usize> {
    those([(ONE_OVER, exact.is(LIMIT + 1)), (TOO_BIG_BELOW_ZERO, exact.number.minus)])
}

/// What an answer shows.
fn answered(exact: &Exact, decimals: usize, units: i64) -> Vec<usize> {
    let Some(rounding) = exact.rounding(units) else { return Vec::new() };
    let Number { minus, digits, .. } = &exact.number;
    let (just_below, just_above) = (rounding == Rounding::Down { just: true }, rounding == Rounding::Up { just: true });
    let (is_last, is_exact) = (digits.len() == 16, rounding == Rounding::Exact);
    let is_at_limit = units.unsigned_abs() == LIMIT;
    those([
        (HALF + decimals, rounding == Rounding::Half && !minus),
        (HALF_BELOW_ZERO + decimals, rounding == Rounding::Half && *minus),
        (JUST_BELOW, just_below),
        (JUST_ABOVE, just_above),
        (LAST_BELOW, just_below && is_last),
        (LAST_ABOVE, just_above && is_last),
        (AT_LIMIT, is_at_limit),
        (UP_TO_LIMIT, is_at_limit && !is_exact),
        (ZERO_WITH_MINUS, units == 0 && *minus),
        (ZERO_FOR_MORE, units == 0 && !is_exact),
    ])
}

/// What a text that is no number shows, by the numbers that are one byte away from it.
fn refused(text: &[u8]) -> Vec<usize> {
    if text.len() > LONGEST + 1 {
        return Vec::new();
    }
    let without = |at: usize| number(&[&text[..at], &text[at + 1..]].concat());
    let with_zero = |at: usize, after: usize| number(&[&text[..at], b"0", &text[after..]].concat());
    let before_blank = text.iter().position(|byte| *byte == b' ').and_then(|at| number(&text[..at]));
    those([
        (EMPTY, text.is_empty()),
        (SEVENTEEN, (0..text.len()).filter_map(without).any(|number| number.digits.len() == 16)),
        (TOO_MANY, (0..text.len()).any(|at| without(at).is_some())),
        (TOO_FEW, (0..=text.len()).any(|at| with_zero(at, at).is_some())),
        (WRONG_BYTE, (0..text.len()).any(|at| with_zero(at, at + 1).is_some())),
        (MORE_AFTER, before_blank.is_some()),
    ])
}

#[cfg(test)]
mod tests {
    use super::*;
    use crate::items::{generated_text, Ask};
    use second::say::say;
    use second::weigh::weigh;

    fn shown(text: &str, decimals: u32) -> Vec<usize> {
        let saying = Saying { text: text.as_bytes().to_vec(), decimals };
        let mut roundings = roundings();
        roundings.add(things(&saying, &weigh(&saying), say(&saying)));
        (0..NAMES.len()).filter(|at| roundings.counts[*at] > 0).collect()
    }

    #[test]
    fn an_answer_is_counted_by_how_it_lies() {
        assert_eq!(shown("2", 0), []);
        assert_eq!(shown("0.5", 0), [HALF]);
        assert_eq!(shown("-0.0000005", 6), [HALF_BELOW_ZERO + 6]);
        assert_eq!(shown("1.25E-1", 2), [HALF + 2]);
        assert_eq!(shown("2.4", 0), [JUST_BELOW]);
        assert_eq!(shown("2.3", 0), []);
        assert_eq!(shown("-2.51", 0), [JUST_ABOVE]);
        assert_eq!(shown("4.999999999999999", 0), [SIXTEEN]);
        assert_eq!(shown("2.499999999999999", 0), [JUST_BELOW, LAST_BELOW, SIXTEEN]);
        assert_eq!(shown("2.500000000000001", 0), [JUST_ABOVE, LAST_ABOVE, SIXTEEN]);
        assert_eq!(shown("-0", 0), [ZERO_WITH_MINUS]);
        assert_eq!(shown("-0.4", 0), [JUST_BELOW, ZERO_WITH_MINUS, ZERO_FOR_MORE]);
        assert_eq!(shown("0.1", 0), [ZERO_FOR_MORE]);
    }

    #[test]
    fn the_limit_is_counted_by_what_was_said() {
        assert_eq!(shown("1.0E15", 0), [AT_LIMIT]);
        assert_eq!(shown("-999999999.9999995", 6), [HALF_BELOW_ZERO + 6, AT_LIMIT, UP_TO_LIMIT, SIXTEEN]);
        assert_eq!(shown("100000000000000.1", 1), [ONE_OVER, SIXTEEN]);
        assert_eq!(shown("-100000000000000.2", 1), [TOO_BIG_BELOW_ZERO, SIXTEEN]);
        assert_eq!(shown("1.0E999", 1), [THREE_DIGITS, TOP_EXPONENT]);
        assert_eq!(shown("0.0e-999", 1), [THREE_DIGITS_DOWN, LEAST_EXPONENT]);
        assert_eq!(shown("1.0e-001", 1), [THREE_DIGITS_DOWN]);
    }

    #[test]
    fn a_refused_text_is_counted_by_the_numbers_near_it() {
        assert_eq!(shown("1.5", 7), [PLACES_RIGHT]);
        assert_eq!(shown("", 7), [PLACES_WRONG]);
        assert_eq!(shown("", 0), [EMPTY, TOO_FEW]);
        assert_eq!(shown("12345678901234567", 0), [SEVENTEEN, TOO_MANY]);
        assert_eq!(shown("1.5E-0003", 0), [TOO_MANY]);
        assert_eq!(shown("5.", 0), [TOO_MANY, TOO_FEW, WRONG_BYTE]);
        assert_eq!(shown("1,5", 0), [TOO_MANY, WRONG_BYTE]);
        assert_eq!(shown("1 [KM]", 0), [MORE_AFTER]);
        assert_eq!(shown("NaN", 0), []);
        assert_eq!(shown(&"1".repeat(70_000), 0), []);
    }

    #[test]
    fn generated_texts_show_everything_often_enough() {
        let seed = 1;
        let mut roundings = roundings();
        for item in (0..12_000).map(|turn| generated_text(seed, turn)) {
            let Ask::Say(spoken) = &item.ask else { panic!("a text is to be said") };
            roundings.add(things(&spoken.saying, &weigh(&spoken.saying), say(&spoken.saying)));
        }
        println!("seed {seed}: {}", roundings.words());
        // A tenth of the texts of a whole run, and twice the floor, so that a run has some to spare.
        assert_eq!(roundings.rare(20), Vec::<String>::new());
    }
}
