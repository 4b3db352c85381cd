//! Makes values to be said in words. A sound one is made together with its words: each part is put down twice, once as it is written and once as it
//! is said. So the words are known as soon as there is a value, and no speaker is asked.

use crate::clock::{any_part, any_time, Days, Time, DAY, SECOND};
use crate::desk::{FINE, NO_ROOM};
use crate::dice::Dice;
use crate::judge::Reason;
use crate::sayings::{any_digits, spoilt};
use crate::voice::{words, Voiced, Voicing, LONGEST_VALUE};

/// A voicing, and what must come of it if that is known without any speaker.
pub struct Prompt {
    pub voicing: Voicing,
    pub known: Option<Voiced>,
}

/// So many bytes are room enough for any words.
pub const ENOUGH_ROOM: usize = 259;

/// So many in a hundred values are damaged, or come with a code that they are not for.
const DAMAGED: usize = 48;

/// A value, sound or damaged, with a code and a buffer.
pub fn any_prompt(dice: &mut Dice) -> Prompt {
    let Made { code, value, due } = if dice.percent(DAMAGED) { damaged(dice) } else { any_sound(dice) };
    let buffer = any_buffer(code, &value, dice);
    Prompt { known: due.foretold(&buffer), voicing: Voicing { code, value, buffer } }
}

/// A buffer of about as many bytes as are needed; its bytes are such that no words have, so that a touched one shows.
fn any_buffer(code: u32, value: &[u8], dice: &mut Dice) -> Vec<u8> {
    let needed = words(code, value).map_or_else(|| dice.below(60), |words| words.len());
    let size = match dice.below(20) {
        0 | 1 => 0,
        2 => dice.below(needed),
        3 => value.len() % 300,
        4..=6 => needed.saturating_sub(1),
        7..=10 => needed,
        11 => needed + 1,
        12..=14 => ENOUGH_ROOM,
        15 | 16 => ENOUGH_ROOM - 1,
        17 => needed + dice.below(20),
        _ => dice.below(700),
    };
    (0..size).map(|_| dice.byte() | 128).collect()
}

/// A value, the code that it comes with, and what is due for it.
struct Made {
    code: u32,
    value: Vec<u8>,
    due: Due,
}

enum Due {
    Words(String),
    Value,
    /// Not known beforehand.
    Open,
}

impl Due {
    /// What must come of it in this buffer, whose bytes are then put down one after the other.
    fn foretold(&self, buffer: &[u8]) -> Option<Voiced> {
        let mut voiced = Voiced { reason: Reason::Value.number(), length: 0, buffer: buffer.to_vec() };
        let words = match self {
            Due::Words(words) => words,
            Due::Value => return Some(voiced),
            Due::Open => return None,
        };
        voiced.reason = NO_ROOM;
        if words.len() <= buffer.len() {
            voiced.reason = FINE;
            voiced.length = words.len() as u32;
            words.bytes().enumerate().for_each(|(at, byte)| voiced.buffer[at] = byte);
        }
        Some(voiced)
    }
}

/// The kinds of values.
#[derive(Clone, Copy, Debug, PartialEq, Eq)]
enum Kind {
    Number,
    Integer,
    Epoch,
    Text,
    Version,
    Comment,
}

impl Kind {
    /// The codes whose values are of this kind.
    fn codes(self) -> &'static [u32] {
        match self {
            Kind::Number => &[10, 11, 12, 13, 14, 15, 16, 17, 18, 19, 20, 21, 22, 23, 24, 25, 26, 27, 28, 30, 31, 33, 34, 35],
            Kind::Integer => &[43],
            Kind::Epoch => &[2, 9, 29, 38, 39, 40, 41],
            Kind::Text => &[3, 4, 5, 6, 7, 8, 32, 42],
            Kind::Version => &[1, 36],
            Kind::Comment => &[45],
        }
    }

    fn value(self, dice: &mut Dice) -> Both {
        match self {
            Kind::Number => number(dice),
            Kind::Integer => integer(dice),
            Kind::Epoch => epoch(dice),
            Kind::Text => text(dice),
            Kind::Version => Both::default().same("1.0"),
            Kind::Comment if dice.percent(35) => Both::default(),
            Kind::Comment => text(dice),
        }
    }
}

fn any_kind(dice: &mut Dice) -> Kind {
    match dice.below(25) {
        0..=6 => Kind::Number,
        7..=12 => Kind::Integer,
        13..=18 => Kind::Epoch,
        19..=21 => Kind::Text,
        22 => Kind::Version,
        _ => Kind::Comment,
    }
}

/// A value that is right in its kind.
fn any_sound(dice: &mut Dice) -> Made {
    sound(any_kind(dice), dice)
}

fn sound(kind: Kind, dice: &mut Dice) -> Made {
    let Both { written, said } = kind.value(dice);
    Made { code: dice.pick(kind.codes()), value: written.into_bytes(), due: Due::Words(said) }
}

/// A value as it is made, and its words.
#[derive(Default)]
struct Both {
    written: String,
    said: String,
}

impl Both {
    /// Puts down a part that is said otherwise than it is written.
    fn put(mut self, written: &str, said: &str) -> Both {
        self.written.push_str(written);
        self.said.push_str(said);
        self
    }

    /// Puts down a part that is said as it is written.
    fn same(self, part: &str) -> Both {
        self.put(part, part)
    }

    /// Puts down a sign, or none.
    fn sign(self, dice: &mut Dice) -> Both {
        match dice.below(5) {
            0 | 1 => self.put("-", "minus "),
            2 | 3 => self.put("+", "plus "),
            _ => self,
        }
    }
}

/// A number has at most so many digits.
const MOST_DIGITS: usize = 16;

fn number(dice: &mut Dice) -> Both {
    let both = Both::default().sign(dice);
    if dice.percent(40) {
        return both.same(&plain_decimal(dice));
    }
    let after = if dice.percent(20) { MOST_DIGITS - 1 } else { dice.between(1, MOST_DIGITS - 1) };
    let size = format!("{}.{}", any_digits(1, dice), any_digits(after, dice));
    let power = any_power(dice);
    both.same(&size).put(dice.pick(&["E", "e"]), " times ten to the ").sign(dice).same(&power)
}

/// Digits, mostly with a period among them.
fn plain_decimal(dice: &mut Dice) -> String {
    let count = if dice.percent(30) { MOST_DIGITS } else { dice.between(1, MOST_DIGITS) };
    let digits = if dice.percent(10) { "0".repeat(count) } else { any_digits(count, dice) };
    if count == 1 || dice.percent(25) {
        return digits;
    }
    let (before, after) = digits.split_at(dice.between(1, count - 1));
    format!("{before}.{after}")
}

/// One to three digits, at times such that say little.
fn any_power(dice: &mut Dice) -> String {
    let count = dice.between(1, 3);
    match dice.below(8) {
        0 => "0".repeat(count),
        1 => "9".repeat(count),
        2 => format!("{:0count$}", dice.below(10)),
        _ => any_digits(count, dice),
    }
}

/// The greatest integer, and one more for the least.
const TOP: u64 = 2_147_483_647;

fn integer(dice: &mut Dice) -> Both {
    let both = Both::default().sign(dice);
    let top = if both.written == "-" { TOP + 1 } else { TOP };
    let size = match dice.below(6) {
        0 => top,
        1 => top - dice.below(10) as u64,
        2 => dice.below(10) as u64,
        3 => 0,
        _ => dice.below(top as usize + 1) as u64,
    };
    let digits = with_zeros(&size.to_string(), both.written.len(), dice);
    both.same(&digits)
}

/// Digits with zeros before them, at times as many as a value with a front of so many bytes has room for.
fn with_zeros(digits: &str, front: usize, dice: &mut Dice) -> String {
    let room = LONGEST_VALUE - front - digits.len();
    let zeros = match dice.below(20) {
        0..=7 => 0,
        8..=10 => dice.between(1, 20),
        11 => dice.below(room),
        _ => room,
    };
    format!("{}{digits}", "0".repeat(zeros))
}

fn epoch(dice: &mut Dice) -> Both {
    let by_day = dice.percent(50);
    let (part, digits) = any_fraction(dice);
    let day = any_day(dice);
    let into = match dice.below(10) {
        0 | 1 => DAY,
        2 => DAY - SECOND,
        3 => 0,
        _ => dice.below(86_400) as u128 * SECOND,
    };
    parted(&day.in_day(into + part).text(by_day, digits), by_day)
}

/// A day, at times the last of February in a leap year or the last of such a year.
fn any_day(dice: &mut Dice) -> Time {
    match dice.below(4) {
        0 => Time::of_day(dice.pick(&[4, 1600, 1996, 2000, 2024, 2400, 9996]), dice.pick(&[60, 366])),
        _ => any_time(dice, Days::Plain),
    }
}

/// A part of a second, and with how many digits it is written.
fn any_fraction(dice: &mut Dice) -> (u128, usize) {
    match dice.below(10) {
        0..=2 => (0, 0),
        3 => (any_part(dice), 9),
        _ => {
            let digits = dice.between(1, 9);
            let ten = 10_usize;
            (dice.below(ten.pow(digits as u32)) as u128 * ten.pow(9 - digits as u32) as u128, digits)
        }
    }
}

/// An epoch's parts, which stand at the same places in every epoch of a form.
fn parted(text: &str, by_day: bool) -> Both {
    let year = Both::default().put("", "year ").same(&text[..4]);
    let (date, clock) = if by_day {
        (year.put("-", " day ").same(&text[5..8]), &text[9..])
    } else {
        (year.put("-", " month ").same(&text[5..7]).put("-", " day ").same(&text[8..10]), &text[11..])
    };
    let hours = date.put("T", ", ").same(&clock[..2]);
    let minutes = hours.put(":", " hours ").same(&clock[3..5]);
    minutes.put(":", " minutes ").same(&clock[6..]).put("", " seconds")
}

/// Any bytes that a line can have, blanks at the ends too; at times they look like something else, which changes nothing.
fn text(dice: &mut Dice) -> Both {
    let look = match dice.below(10) {
        0 => {
            let kind = dice.pick(&[Kind::Number, Kind::Integer, Kind::Epoch, Kind::Version]);
            let Both { written, said } = kind.value(dice);
            if said.len() <= LONGEST_VALUE && dice.percent(50) {
                said
            } else {
                written
            }
        }
        1 => " ".repeat(dice.between(1, 3)),
        2 => format!(" {} ", any_text(dice.below(40), dice)),
        3 | 4 => any_text(LONGEST_VALUE, dice),
        5 => any_text(LONGEST_VALUE - 1, dice),
        _ => any_text(dice.between(1, 40), dice),
    };
    Both::default().same(&look)
}

/// So many bytes from 32 to 126.
fn any_text(count: usize, dice: &mut Dice) -> String {
    (0..count).map(|_| char::from(dice.between(32, 126) as u8)).collect()
}

/// A value that has no words, or may have none any more.
fn damaged(dice: &mut Dice) -> Made {
    match dice.below(20) {
        0 | 1 => with_no_code(any_sound(dice), dice),
        2 => with_bare_code(dice),
        3..=5 => too_long(dice),
        6..=8 => with_odd_byte(dice),
        9..=14 => wrong(dice),
        15..=17 => harmed(dice),
        _ => of_another_kind(dice),
    }
}

/// A code that is none, often one that is if its upper bits are lost.
fn with_no_code(made: Made, dice: &mut Dice) -> Made {
    let code = match dice.below(6) {
        0 | 1 => 0,
        2 => dice.between(46, 60) as u32,
        3 => (1 << dice.between(6, 31)) + made.code,
        4 => u32::MAX - made.code,
        _ => (dice.roll() as u32).max(46),
    };
    Made { code, due: Due::Value, ..made }
}

/// A code that has no value, with something or with nothing.
fn with_bare_code(dice: &mut Dice) -> Made {
    let value = if dice.percent(40) { Vec::new() } else { any_sound(dice).value };
    Made { code: dice.pick(&[37, 44]), value, due: Due::Value }
}

/// A value with nothing wrong but its length.
fn too_long(dice: &mut Dice) -> Made {
    let length = if dice.percent(1) { 65_536 + 254 } else { dice.pick(&[255, 255, 255, 256, 257, 258, 259, 260, 300, 510, 511, 512, 513]) };
    let kind = dice.pick(&[Kind::Integer, Kind::Text, Kind::Comment]);
    let value = if kind == Kind::Integer {
        let sign = dice.pick(&["", "-", "+"]);
        let digits = dice.below(TOP as usize).to_string();
        format!("{sign}{}{digits}", "0".repeat(length - sign.len() - digits.len()))
    } else {
        any_text(length, dice)
    };
    Made { code: dice.pick(kind.codes()), value: value.into_bytes(), due: Due::Value }
}

/// A value with a byte that no line has; in a text or a comment nothing else is wrong.
fn with_odd_byte(dice: &mut Dice) -> Made {
    let kind = dice.pick(&[Kind::Text, Kind::Text, Kind::Comment, Kind::Number, Kind::Epoch]);
    let Made { code, mut value, .. } = sound(kind, dice);
    let byte = if dice.percent(70) { dice.pick(&[0, 9, 10, 13, 31, 127, 128, 160, 255]) } else { dice.byte() % 32 };
    match value.len() {
        0 => value.push(byte),
        length => value[dice.below(length)] = byte,
    }
    Made { code, value, due: Due::Value }
}

/// A value that is not of its code's kind for certain.
fn wrong(dice: &mut Dice) -> Made {
    let kind = match dice.below(10) {
        0..=2 => Kind::Number,
        3 | 4 => Kind::Integer,
        5..=7 => Kind::Epoch,
        8 => Kind::Text,
        _ => Kind::Version,
    };
    let value = match kind {
        _ if dice.percent(25) => Vec::new(),
        Kind::Number if dice.percent(20) => format!("{} {}", number(dice).written, dice.pick(&UNITS)).into_bytes(),
        Kind::Number => spoilt(number(dice).written.into_bytes(), dice),
        Kind::Integer => wrong_integer(dice).into_bytes(),
        Kind::Epoch => wrong_epoch(dice).into_bytes(),
        Kind::Version => dice.pick(&WRONG_VERSIONS).as_bytes().to_vec(),
        // A text is wrong by being empty alone.
        Kind::Text | Kind::Comment => Vec::new(),
    };
    Made { code: dice.pick(kind.codes()), value, due: Due::Value }
}

/// A unit may follow a number in a message, but is no part of it.
const UNITS: [&str; 7] = ["[KM]", "[KM/S]", "[DEG]", "[KM**3/S**2]", "[KG]", "[M**2]", "[S]"];

const WRONG_VERSIONS: [&str; 16] =
    ["", "", "1", "1.", "1.00", "01.0", "1.1", "2.0", "0.0", "+1.0", "-1.0", "1.0E0", "1,0", " 1.0", "1.0 ", "1.0 [KM]"];

const WRONG_INTEGERS: [&str; 28] = [
    "-", "+", "--1", "+-1", "1-", "1.", "1.0", "1e3", "1.0E3", "0x10", "1,000", "1_000", "1 000", "1 [KM]", "one", "2147483648",
    "-2147483649", "+2147483648", "2147483650", "4294967295", "4294967296", "4294967297", "-4294967296", "9999999999",
    "9223372036854775808", "18446744073709551615", "18446744073709551616", "-18446744073709551617",
];

fn wrong_integer(dice: &mut Dice) -> String {
    match dice.below(4) {
        0 | 1 => dice.pick(&WRONG_INTEGERS).to_string(),
        2 => blank_about(&integer(dice).written, dice),
        // One more than the greatest or the least, after as many zeros as there is room for.
        _ => {
            let (sign, size) = dice.pick(&[("", "2147483648"), ("+", "2147483648"), ("-", "2147483649"), ("", "9999999999")]);
            format!("{sign}{}", with_zeros(size, sign.len(), dice))
        }
    }
}

fn blank_about(value: &str, dice: &mut Dice) -> String {
    match dice.below(3) {
        0 => format!(" {value}"),
        1 => format!("{value} "),
        _ => format!("  {value} "),
    }
}

/// Epochs whose parts do not go together.
const WRONG_EPOCHS: [&str; 16] = [
    "1900-02-29T00:00:00", "2001-366T00:00:00", "2023-02-29T12:00:00.5", "2024-02-30T12:00:00", "2026-04-31T00:00:00",
    "2026-06-31T00:00:00", "2026-09-31T00:00:00", "2026-11-31T00:00:00", "2100-366T00:00:00", "2026-11-16", "20:01:30", "2026-11-16T",
    "T20:01:30", "2026-11-16T20:01", "2026-11-16T20:01.5", "year 2026 day 320, 20 hours 01 minutes 30 seconds",
];

/// An epoch with one part that it cannot have.
fn wrong_epoch(dice: &mut Dice) -> String {
    let text = epoch(dice).written;
    let by_day = text.as_bytes()[8] == b'T';
    let clock = if by_day { 9 } else { 11 };
    let put = |at: usize, part: &str| format!("{}{part}{}", &text[..at], &text[at + part.len()..]);
    match dice.below(16) {
        0 => dice.pick(&WRONG_EPOCHS).to_string(),
        1 => blank_about(&text, dice),
        2 => put(0, "0000"),
        3 if by_day => put(5, dice.pick(&["000", "367", "999"])),
        3 => put(5, dice.pick(&["00", "13", "99"])),
        4 if by_day => put(8, dice.pick(&["t", " ", "-"])),
        4 => put(8, dice.pick(&["00", "32", "99"])),
        5 => put(clock, dice.pick(&["24", "99"])),
        6 => put(clock + 3, dice.pick(&["60", "99"])),
        7 => put(clock + 6, dice.pick(&["61", "99"])),
        8..=10 => put(clock, &format!("{}60", dice.pick(&["22:59:", "23:58:", "00:00:", "23:00:", "00:59:", "20:01:", "12:30:"]))),
        11 => put(dice.pick(&[4, clock - 1, clock + 2, clock + 5]), dice.pick(&[" ", ".", "/", ",", "0"])),
        12 => {
            let at = dice.below(clock + 8);
            format!("{}{}", &text[..at], &text[at + 1..])
        }
        13 => format!("{}.{}", &text[..clock + 8], any_digits(dice.between(10, 12), dice)),
        14 => format!("{}{}", &text[..clock + 8], dice.pick(&[".", ",5", ".5.5", ".-5", ".5e1"])),
        _ => format!("{text}{}", dice.pick(&["Z", "z", "+00:00", " UTC", ":00", "."])),
    }
}

/// The bytes that numbers and epochs are made of, and some that stand about them.
const BYTES: &[u8; 20] = b"0123456789+-.EeT: [Z";

/// A value with a byte changed, taken out or put in; it may be right still.
fn harmed(dice: &mut Dice) -> Made {
    let Made { code, mut value, .. } = any_sound(dice);
    let byte = if dice.percent(80) { dice.pick(BYTES) } else { dice.byte() };
    match dice.below(3) {
        0 if !value.is_empty() => {
            let at = dice.below(value.len());
            value[at] = byte;
        }
        1 if !value.is_empty() => {
            value.remove(dice.below(value.len()));
        }
        _ => value.insert(dice.between(0, value.len()), byte),
    }
    Made { code, value, due: Due::Open }
}

/// A value of one kind with the code of another; as a text or a comment it is said as it stands.
fn of_another_kind(dice: &mut Dice) -> Made {
    let value = any_sound(dice).value;
    let kind = any_kind(dice);
    let is_said = kind == Kind::Comment || (kind == Kind::Text && !value.is_empty());
    let due = String::from_utf8(value.clone()).ok().filter(|_| is_said).map_or(Due::Open, Due::Words);
    Made { code: dice.pick(kind.codes()), value, due }
}

#[cfg(test)]
mod tests {
    use super::*;
    use crate::hear::fault;
    use crate::voice::voice;
    use std::collections::{BTreeMap, BTreeSet};

    const SEED: u64 = 83;

    #[test]
    fn the_speaker_answers_as_foretold_and_is_heard() {
        for turn in 0..30_000 {
            let Prompt { voicing, known } = any_prompt(&mut Dice::new(SEED, turn));
            let voiced = voice(&voicing);
            let words = || format!("seed {SEED}, turn {turn}: code {}, {}", voicing.code, voicing.value.escape_ascii());
            known.into_iter().for_each(|known| assert_eq!(known, voiced, "{}", words()));
            assert_eq!(fault(&voicing, &voiced), None, "{}", words());
        }
    }

    #[test]
    fn an_epoch_is_put_down_as_it_was() {
        for turn in 0..2_000 {
            let Both { written, said } = epoch(&mut Dice::new(SEED, turn));
            let by_day = written.as_bytes()[8] == b'T';
            assert_eq!(parted(&written, by_day).said, said);
        }
        let Both { written, said } = parted("2026-11-16T20:01:30.5", false);
        assert_eq!((&written[..], &said[..]), ("2026-11-16T20:01:30.5", "year 2026 month 11 day 16, 20 hours 01 minutes 30.5 seconds"));
        let Both { written, said } = parted("2026-320T20:01:30", true);
        assert_eq!((&written[..], &said[..]), ("2026-320T20:01:30", "year 2026 day 320, 20 hours 01 minutes 30 seconds"));
    }

    #[test]
    fn sound_values_fit_and_have_words() {
        let mut codes = BTreeMap::new();
        for turn in 0..20_000 {
            let Made { code, value, due } = any_sound(&mut Dice::new(SEED, turn));
            let Due::Words(said) = due else { panic!("a sound value has words") };
            assert!(value.len() <= LONGEST_VALUE && said.len() <= ENOUGH_ROOM);
            assert_eq!(words(code, &value), Some(said));
            *codes.entry(code).or_insert(0) += 1;
        }
        let all: Vec<u32> = (1..=45).filter(|code| ![37, 44].contains(code)).collect();
        assert_eq!(codes.into_keys().collect::<Vec<_>>(), all);
    }

    #[test]
    fn sound_values_reach_every_length() {
        let made = |kind: Kind| (0..20_000).map(move |turn| kind.value(&mut Dice::new(SEED, turn)));
        let lengths = |kind| made(kind).map(|both| both.written.len()).collect::<BTreeSet<_>>();
        assert_eq!(lengths(Kind::Epoch), [17].into_iter().chain(19..=29).collect());
        let (numbers, integers) = (lengths(Kind::Number), lengths(Kind::Integer));
        assert!((1..=23).all(|length| numbers.contains(&length)));
        assert!((1..=254).filter(|length| !integers.contains(length)).count() < 20);
        for (sign, longest) in [("-", 259), ("+", 258), ("", 254)] {
            let is_longest = |both: &Both| both.said.len() == longest && both.written.starts_with(sign);
            assert!(made(Kind::Integer).filter(is_longest).count() > 100, "{sign}");
        }
        for sign in ["", "-", "+"] {
            for count in 1..=3 {
                let tail = |both: &Both| both.written.split_once(['E', 'e']).map(|(_, power)| power.to_string());
                let is_such = |power: &String| power.len() == sign.len() + count && power.starts_with(sign);
                assert!(made(Kind::Number).filter_map(|both| tail(&both)).filter(is_such).count() > 100, "{sign} and {count} digits");
            }
        }
    }

    #[test]
    fn wrong_values_have_no_words() {
        for turn in 0..20_000 {
            let mut dice = Dice::new(SEED, turn);
            for made in [wrong(&mut dice), too_long(&mut dice), with_odd_byte(&mut dice), with_bare_code(&mut dice)] {
                assert_eq!(words(made.code, &made.value), None, "code {}, {}", made.code, made.value.escape_ascii());
            }
            let made = with_no_code(any_sound(&mut dice), &mut dice);
            assert!(!(1..=45).contains(&made.code) && words(made.code, &made.value).is_none(), "code {}", made.code);
        }
    }

    #[test]
    fn harmed_values_are_right_at_times() {
        let is_said = |turn: u64| {
            let Made { code, value, .. } = harmed(&mut Dice::new(SEED, turn));
            words(code, &value).is_some()
        };
        let said = (0..5_000).filter(|turn| is_said(*turn)).count();
        assert!((1_000..4_000).contains(&said), "{said} of 5000");
    }
}
