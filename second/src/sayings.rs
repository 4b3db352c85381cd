//! Makes texts to be said. A sound one is made from its answer: first so many whole units and a rest, then the digits of that, then one of the many
//! texts that these digits can be written as. So the answer is known before there is a text, and no sayer is asked.

use crate::desk::FINE;
use crate::dice::Dice;
use crate::say::{Said, Saying, NO_NUMBER, TOO_GREAT, TOO_MANY_PLACES};
use crate::weigh::LIMIT;

/// A saying, and what must come of it if that is known without any sayer.
pub struct Spoken {
    pub saying: Saying,
    pub known: Option<Said>,
}

/// A number has at most so many digits.
const MOST_DIGITS: usize = 16;

/// So many in a hundred texts are damaged.
const DAMAGED: usize = 22;

/// So many in a hundred texts come with a count of decimals that is over 6.
const MANY_PLACES: usize = 8;

/// A text, sound or damaged, with a count of decimals.
pub fn any_spoken(dice: &mut Dice) -> Spoken {
    let decimals = dice.below(7);
    let Made { text, known } = if dice.percent(DAMAGED) { damaged(decimals, dice) } else { sound(decimals, dice) };
    if dice.percent(MANY_PLACES) {
        return Spoken { saying: Saying { text, decimals: many_places(decimals, dice) }, known: Some(TOO_MANY_PLACES) };
    }
    Spoken { saying: Saying { text, decimals: decimals as u32 }, known }
}

/// A count over 6, often one that is not if its upper bits are lost.
fn many_places(decimals: usize, dice: &mut Dice) -> u32 {
    match dice.below(5) {
        0 => 7,
        1 => dice.pick(&[8, 9, 10, 15, 16, 17, 18, 19, 20, 31, 32, 64, 255, 999, u32::MAX]),
        2 => u32::MAX - decimals as u32,
        3 => (1 << dice.between(3, 31)) + decimals as u32,
        _ => (dice.roll() as u32).max(7),
    }
}

/// A text, and what must be said of it at the count of decimals that it was made for, if that is known.
struct Made {
    text: Vec<u8>,
    known: Option<Said>,
}

/// A text that is a number.
fn sound(decimals: usize, dice: &mut Dice) -> Made {
    match dice.below(20) {
        0..=6 => near_half(decimals, dice),
        7..=9 => near_limit(decimals, dice),
        10..=13 => anything(decimals, dice),
        14..=17 => far(decimals, dice),
        _ => zero(dice),
    }
}

/// What stands beyond the whole units, away from zero.
#[derive(Clone, Copy, Debug, PartialEq, Eq)]
enum Rest {
    Nothing,
    UnderHalf,
    JustUnderHalf,
    Half,
    JustOverHalf,
    OverHalf,
}

/// An exact number of units.
#[derive(Clone, Copy, Debug)]
struct Amount {
    minus: bool,
    whole: u64,
    rest: Rest,
}

impl Amount {
    /// What must be said of it.
    fn foretold(self) -> Said {
        let is_more = matches!(self.rest, Rest::Half | Rest::JustOverHalf | Rest::OverHalf);
        match self.whole + u64::from(is_more) {
            size @ 0..=LIMIT => Said { reason: FINE, units: if self.minus { -(size as i64) } else { size as i64 } },
            _ => TOO_GREAT,
        }
    }

    /// One of the texts that it can be written as.
    fn text(self, decimals: usize, dice: &mut Dice) -> Vec<u8> {
        let whole = if self.whole == 0 && self.rest != Rest::Nothing { String::new() } else { self.whole.to_string() };
        let mut room = MOST_DIGITS - whole.len();
        // Without an exponent a small number has a zero before the period and one for each decimal that it does not reach.
        if whole.len() <= decimals && dice.percent(60) {
            room = MOST_DIGITS - 1 - decimals;
        }
        let rest = rest_digits(self.rest, room, dice);
        let last = -((decimals + rest.len()) as i32);
        Numeral { minus: self.minus, digits: format!("{whole}{rest}"), last }.text(dice)
    }

    fn made(self, decimals: usize, dice: &mut Dice) -> Made {
        Made { text: self.text(decimals, dice), known: Some(self.foretold()) }
    }
}

/// The digits of a rest, at most so many; there is room for one at least, unless the rest is nothing.
fn rest_digits(rest: Rest, room: usize, dice: &mut Dice) -> String {
    if rest == Rest::Nothing {
        return some_zeros(room, dice);
    }
    let more = if dice.percent(50) { room - 1 } else { dice.below(room) };
    match rest {
        Rest::JustUnderHalf => format!("4{}", "9".repeat(more)),
        Rest::Half => format!("5{}", "0".repeat(more)),
        Rest::JustOverHalf if more > 0 => format!("5{}1", "0".repeat(more - 1)),
        Rest::JustOverHalf => "6".to_string(),
        Rest::OverHalf if dice.percent(20) => "9".repeat(more + 1),
        Rest::OverHalf => format!("{}{}", dice.between(6, 9), any_digits(more, dice)),
        _ if dice.percent(20) => format!("{}1", "0".repeat(more)),
        _ => format!("{}{}", dice.between(0, 4), any_digits(more, dice)),
    }
}

pub fn any_digits(count: usize, dice: &mut Dice) -> String {
    (0..count).map(|_| char::from(b'0' + dice.below(10) as u8)).collect()
}

/// A whole number of at most so many digits, at times one that carries far.
fn any_whole(most: usize, dice: &mut Dice) -> u64 {
    let digits = match dice.below(10) {
        0 => "9".repeat(most),
        1 => format!("{}{}", any_digits(most / 2, dice), "9".repeat(most - most / 2)),
        _ => any_digits(most, dice),
    };
    digits.parse().unwrap_or(0)
}

/// A half, or what lies just beside it.
fn near_half(decimals: usize, dice: &mut Dice) -> Made {
    let rest = dice.pick(&[Rest::Half, Rest::Half, Rest::JustUnderHalf, Rest::JustOverHalf]);
    let most = dice.pick(&[0, 1, 2, 3, 5, 8, 11, 14, 15]);
    Amount { minus: dice.percent(50), whole: any_whole(most, dice), rest }.made(decimals, dice)
}

/// A number at the limit or beside it. Beyond it there is never a rest, since that would take 17 digits.
fn near_limit(decimals: usize, dice: &mut Dice) -> Made {
    let rests = [Rest::Nothing, Rest::UnderHalf, Rest::JustUnderHalf, Rest::Half, Rest::JustOverHalf, Rest::OverHalf];
    let near = dice.pick(&[1, 1, 1, 2, 10, 1_000_000]);
    let (whole, rest) = match dice.below(7) {
        0 | 1 => (LIMIT - near, dice.pick(&rests)),
        2 | 3 => (LIMIT, Rest::Nothing),
        4 => (LIMIT + near, Rest::Nothing),
        5 => (LIMIT + dice.below(9_000_000_000_000_000) as u64, Rest::Nothing),
        _ => (9_999_999_999_999_999, Rest::Nothing),
    };
    Amount { minus: dice.percent(50), whole, rest }.made(decimals, dice)
}

/// Any whole number within the limit with any rest.
fn anything(decimals: usize, dice: &mut Dice) -> Made {
    let rest = dice.pick(&[Rest::Nothing, Rest::UnderHalf, Rest::UnderHalf, Rest::Half, Rest::OverHalf, Rest::OverHalf]);
    let most = dice.below(MOST_DIGITS);
    Amount { minus: dice.percent(50), whole: any_whole(most, dice), rest }.made(decimals, dice)
}

/// A number so far from the unit that its digits do not matter: it is under a tenth of a unit, or at ten times the limit or beyond.
fn far(decimals: usize, dice: &mut Dice) -> Made {
    let far = match dice.below(6) {
        0 => dice.below(3),
        1 => dice.pick(&[83, 84, 98, 99, 100]),
        2..=4 => dice.below(999),
        _ => 1_100,
    };
    let (exponent, said) = if dice.percent(50) {
        ((16 - decimals as i32 + far as i32).min(999), TOO_GREAT)
    } else {
        ((-2 - decimals as i32 - far as i32).max(-999), Said { reason: FINE, units: 0 })
    };
    let count = dice.pick(&[1, 2, 3, 8, 15, 16, 16]);
    let digits = format!("{}{}", dice.between(1, 9), any_digits(count - 1, dice));
    let numeral = Numeral { minus: dice.percent(50), last: exponent - (count as i32 - 1), digits };
    Made { text: numeral.text(dice), known: Some(said) }
}

/// A zero in any form.
fn zero(dice: &mut Dice) -> Made {
    let digits = "0".repeat(dice.pick(&[1, 1, 2, 3, 9, 15, 16]));
    let exponent = dice.pick(&[0, 1, 9, 10, 15, 16, 99, 100, 998, 999]) * dice.pick(&[1, -1]);
    let last = if dice.percent(50) { exponent - (digits.len() as i32 - 1) } else { -(dice.below(digits.len()) as i32) };
    let numeral = Numeral { minus: dice.percent(50), digits, last };
    Made { text: numeral.text(dice), known: Some(Said { reason: FINE, units: 0 }) }
}

/// Digits, one at least, and the place of the last of them as a power of ten.
struct Numeral {
    minus: bool,
    digits: String,
    last: i32,
}

impl Numeral {
    /// Without an exponent or with one; zeros at the end go at times.
    fn text(mut self, dice: &mut Dice) -> Vec<u8> {
        while self.digits.len() > 1 && self.digits.ends_with('0') && dice.percent(50) {
            self.digits.pop();
            self.last += 1;
        }
        let plain = if dice.percent(50) { self.plain(dice) } else { None };
        let body = plain.unwrap_or_else(|| self.with_exponent(dice));
        let sign = if self.minus { "-" } else { dice.pick(&["", "", "+"]) };
        format!("{sign}{body}").into_bytes()
    }

    /// Without an exponent, if that does not take too many digits.
    fn plain(&self, dice: &mut Dice) -> Option<String> {
        if !(-15..=15).contains(&self.last) {
            return None;
        }
        let after = (-self.last).max(0) as usize;
        let whole = format!("{}{}", self.digits, "0".repeat(self.last.max(0) as usize));
        // One digit at least stands before the period.
        let digits = format!("{whole:0>least$}", least = after + 1);
        let spare = MOST_DIGITS.checked_sub(digits.len())?;
        let lead = some_zeros(spare, dice);
        let tail = some_zeros(spare - lead.len(), dice);
        let (before, after) = digits.split_at(digits.len() - after);
        let period = if after.is_empty() && tail.is_empty() { "" } else { "." };
        Some(format!("{lead}{before}{period}{after}{tail}"))
    }

    /// With an exponent: one digit before the period, and one at least after it.
    fn with_exponent(&self, dice: &mut Dice) -> String {
        let exponent = self.last + self.digits.len() as i32 - 1;
        let digits = format!("{:0<2}", self.digits);
        let spare = MOST_DIGITS - digits.len();
        let tail = some_zeros(spare, dice);
        // Each zero in front takes one more in the exponent, and there is a greatest one.
        let lead = some_zeros((spare - tail.len()).min((999 - exponent) as usize), dice);
        let digits = format!("{lead}{digits}{tail}");
        let (first, others) = digits.split_at(1);
        format!("{first}.{others}{}", any_exponent(exponent + lead.len() as i32, dice))
    }
}

/// Zeros, at most so many; mostly none.
fn some_zeros(most: usize, dice: &mut Dice) -> String {
    let count = if dice.percent(75) { 0 } else { dice.between(0, most) };
    "0".repeat(count)
}

/// An exponent in one of its forms.
fn any_exponent(exponent: i32, dice: &mut Dice) -> String {
    let letter = dice.pick(&["E", "e"]);
    let sign = match exponent {
        0 => dice.pick(&["", "+", "-"]),
        1.. => dice.pick(&["", "+"]),
        _ => "-",
    };
    let least = dice.pick(&[1, 1, 2, 3]);
    format!("{letter}{sign}{:0least$}", exponent.abs())
}

/// A text that is no number, or may not be one any more.
fn damaged(decimals: usize, dice: &mut Dice) -> Made {
    let mut text = sound(decimals, dice).text;
    match dice.below(8) {
        0..=3 => Made { text: spoilt(text, dice), known: Some(NO_NUMBER) },
        4..=5 => {
            (0..dice.pick(&[1, 1, 1, 2])).for_each(|_| harm(&mut text, dice));
            Made { text, known: None }
        }
        6 => {
            let other = sound(decimals, dice).text;
            let (front, back) = (dice.between(0, text.len()), dice.between(0, other.len()));
            Made { text: [&text[..front], &other[back..]].concat(), known: None }
        }
        _ => {
            let count = dice.below(24);
            Made { text: (0..count).map(|_| any_byte(dice)).collect(), known: None }
        }
    }
}

/// The bytes that numbers are made of.
const BYTES: &[u8; 15] = b"0123456789+-.Ee";

fn any_byte(dice: &mut Dice) -> u8 {
    if dice.percent(80) {
        dice.pick(BYTES)
    } else {
        dice.byte()
    }
}

/// Changes a byte, puts one in or takes one out; the text may be a number still.
fn harm(text: &mut Vec<u8>, dice: &mut Dice) {
    let byte = any_byte(dice);
    match dice.below(3) {
        0 if !text.is_empty() => {
            let at = dice.below(text.len());
            text[at] = byte;
        }
        1 if !text.is_empty() => {
            text.remove(dice.below(text.len()));
        }
        _ => text.insert(dice.between(0, text.len()), byte),
    }
}

/// Makes something of a number's text that is no number for certain.
type Spoil = fn(Vec<u8>, &mut Dice) -> Vec<u8>;

const SPOILS: [Spoil; 12] = [
    empty, word, stranger, blank_about, unit_after, two_periods, two_signs, bare_period, many_digits, wrong_exponent, wrong_exponent, long,
];

/// A number's text made into something that is none.
pub fn spoilt(text: Vec<u8>, dice: &mut Dice) -> Vec<u8> {
    let spoil = dice.pick(&SPOILS);
    spoil(text, dice)
}

fn empty(_: Vec<u8>, _: &mut Dice) -> Vec<u8> {
    Vec::new()
}

const WORDS: [&str; 32] = [
    ".", "-", "+", "E", "e5", "-E5", "+.", "-.5", "NaN", "inf", "-Infinity", "0x1F", "0b1", "1,5", "1_000", "1 000", "1/2", "1.5d3",
    "1.5F3", "1.5f", "1.5E 3", "1. 5", "- 1", "--1", "1-", "1.5+3", "1.5EE3", "one", "1\n", "\t1", "1\0", "\u{661}",
];

fn word(_: Vec<u8>, dice: &mut Dice) -> Vec<u8> {
    dice.pick(&WORDS).as_bytes().to_vec()
}

/// A byte that no number has.
fn stranger(mut text: Vec<u8>, dice: &mut Dice) -> Vec<u8> {
    let mut byte = dice.byte();
    while BYTES.contains(&byte) {
        byte = dice.byte();
    }
    let at = dice.below(text.len());
    if dice.percent(50) {
        text[at] = byte;
    } else {
        text.insert(dice.between(0, text.len()), byte);
    }
    text
}

fn blank_about(text: Vec<u8>, dice: &mut Dice) -> Vec<u8> {
    let blanks = vec![b' '; dice.between(1, 3)];
    match dice.below(3) {
        0 => [blanks, text].concat(),
        1 => [text, blanks].concat(),
        _ => [&blanks[..], &text, &blanks].concat(),
    }
}

/// In a message a number may have a unit after it, but the unit is no part of the number.
fn unit_after(text: Vec<u8>, dice: &mut Dice) -> Vec<u8> {
    [&text[..], dice.pick(&[" [KM]", "[KM]", " [KM/S]", "  [DEG]", " [KM**3/S**2]", " KM", "km", " 5"]).as_bytes()].concat()
}

/// More periods, until there are two.
fn two_periods(mut text: Vec<u8>, dice: &mut Dice) -> Vec<u8> {
    while text.iter().filter(|byte| **byte == b'.').count() < 2 {
        text.insert(dice.between(0, text.len()), b'.');
    }
    text
}

/// More signs in front, until there are two.
fn two_signs(mut text: Vec<u8>, dice: &mut Dice) -> Vec<u8> {
    while text.iter().take(2).filter(|byte| b"+-".contains(byte)).count() < 2 {
        text.insert(0, dice.pick(b"+-"));
    }
    text
}

/// Nothing before the period, or nothing after it.
fn bare_period(text: Vec<u8>, dice: &mut Dice) -> Vec<u8> {
    let Some(at) = text.iter().position(|byte| *byte == b'.') else { return [&text[..], b"."].concat() };
    if dice.percent(50) {
        let sign = usize::from(!text[0].is_ascii_digit());
        [&text[..sign], &text[at..]].concat()
    } else {
        let after = text[at + 1..].iter().take_while(|byte| byte.is_ascii_digit()).count();
        [&text[..=at], &text[at + 1 + after..]].concat()
    }
}

/// More digits at the end, or at the exponent, until there are 17.
fn many_digits(text: Vec<u8>, dice: &mut Dice) -> Vec<u8> {
    let end = text.iter().position(|byte| b"Ee".contains(byte)).unwrap_or(text.len());
    let count = text[..end].iter().filter(|byte| byte.is_ascii_digit()).count();
    let more = MOST_DIGITS + 1 - count + dice.pick(&[0, 0, 0, 1, 4]);
    let digits = if dice.percent(50) { "0".repeat(more) } else { any_digits(more, dice) };
    [&text[..end], digits.as_bytes(), &text[end..]].concat()
}

fn wrong_exponent(_: Vec<u8>, dice: &mut Dice) -> Vec<u8> {
    let (one, other) = (any_digits(1, dice), any_digits(1, dice));
    let letter = dice.pick(&["E", "e"]);
    let sign = dice.pick(&["", "+", "-"]);
    let text = match dice.below(8) {
        0 => format!("{one}.{other}{letter}{sign}"),
        1 => format!("{one}.{other}{letter}{sign}{}", any_digits(4, dice)),
        2 => format!("{one}.{other}{letter}{sign}0{}", any_digits(3, dice)),
        3 => format!("{one}{letter}{sign}{other}"),
        4 => format!("{one}{other}.{one}{letter}{sign}{other}"),
        5 => format!("{one}.{other}{letter}{sign}{one}.{other}"),
        6 => format!("{one}.{other}{letter}{sign}+-{one}"),
        _ => format!("{one}.{}{letter}{sign}{other}", any_digits(16, dice)),
    };
    text.into_bytes()
}

/// Far more digits than a number has.
fn long(text: Vec<u8>, dice: &mut Dice) -> Vec<u8> {
    let count = if dice.percent(2) { 65_539 } else { dice.pick(&[17, 18, 20, 32, 64, 99, 255, 256, 257, 999]) };
    let digit = dice.pick(b"001359");
    [text, vec![digit; count]].concat()
}

#[cfg(test)]
mod tests {
    use super::*;
    use crate::judge::is_number;
    use crate::say::say;
    use crate::weigh::{number, weigh};
    use std::collections::BTreeMap;

    const SEED: u64 = 47;

    #[test]
    fn the_sayer_answers_as_foretold_and_without_fault() {
        for turn in 0..20_000 {
            let Spoken { saying, known } = any_spoken(&mut Dice::new(SEED, turn));
            let said = say(&saying);
            let words = || format!("seed {SEED}, turn {turn}: {} at {}", saying.text.escape_ascii(), saying.decimals);
            known.into_iter().for_each(|known| assert_eq!(known, said, "{}", words()));
            assert_eq!(weigh(&saying).fault(said), None, "{}", words());
        }
    }

    #[test]
    fn sound_texts_are_numbers_and_spoilt_ones_are_none() {
        for turn in 0..20_000 {
            let mut dice = Dice::new(SEED, turn);
            let text = sound(turn as usize % 7, &mut dice).text;
            assert!(is_number(&text) && number(&text).is_some(), "{}", text.escape_ascii());
            for spoil in SPOILS {
                let text = spoil(text.clone(), &mut dice);
                assert!(!is_number(&text) && number(&text).is_none(), "{}", text.escape_ascii());
            }
        }
    }

    #[test]
    fn texts_reach_every_exponent_and_every_count_of_digits() {
        let (mut exponents, mut counts) = (BTreeMap::new(), BTreeMap::new());
        for turn in 0..60_000 {
            let text = sound(turn as usize % 7, &mut Dice::new(SEED, turn)).text;
            let number = number(&text).expect("a number");
            *counts.entry((number.digits.len(), number.exponent.is_some())).or_insert(0) += 1;
            if let Some((minus, digits)) = number.exponent {
                *exponents.entry((minus, digits.iter().fold(0, |size, digit| size * 10 + i32::from(*digit)))).or_insert(0) += 1;
            }
        }
        let often = |key: (usize, bool)| counts.get(&key).is_some_and(|count| *count > 100);
        assert!((1..=16).all(|count| often((count, false))), "{counts:?}");
        assert!((2..=16).all(|count| often((count, true))), "{counts:?}");
        assert!(exponents[&(false, 999)] > 100 && exponents[&(true, 999)] > 100);
        let missing = (0..1_000).flat_map(|size| [(false, size), (true, size)]).filter(|key| !exponents.contains_key(key)).count();
        assert!(missing < 200, "{missing} exponents never came");
    }

    #[test]
    fn an_amount_can_be_written_in_many_ways() {
        let amount = Amount { minus: true, whole: 12, rest: Rest::Half };
        let mut texts: Vec<Vec<u8>> = (0..20_000).map(|turn| amount.text(1, &mut Dice::new(SEED, turn))).collect();
        texts.sort();
        texts.dedup();
        assert!(texts.len() > 500, "{} texts", texts.len());
        for front in ["-1.25", "-1.250", "-01.2", "-00", "-0.0", "-0.1", "-1.25E0", "-1.25e-0", "-1.25E+00", "-1.25e000"] {
            assert!(texts.iter().any(|text| text.starts_with(front.as_bytes())), "{front}");
        }
        texts.iter().for_each(|text| assert_eq!(say(&Saying { text: text.clone(), decimals: 1 }).units, -13));
    }

    #[test]
    fn both_sides_of_the_limit_come_at_every_count_of_decimals() {
        let mut seen = BTreeMap::new();
        for turn in 0..20_000 {
            let Spoken { saying, known } = any_spoken(&mut Dice::new(SEED, turn));
            let Some(Said { reason, units }) = known else { continue };
            *seen.entry((saying.decimals, reason, units.unsigned_abs())).or_insert(0) += 1;
        }
        for decimals in 0..=6 {
            for side in [(decimals, FINE, LIMIT), (decimals, FINE, LIMIT - 1), (decimals, 17, 0)] {
                assert!(seen.get(&side).is_some_and(|count| *count > 10), "{side:?}");
            }
        }
    }
}
