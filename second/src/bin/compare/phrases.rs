//! What is counted of voicings: what a value that was said looks like, how much room there was, and why there were no words.
//! It is known by the value's own bytes and by the kind that its code has in document 01; only how long the words are is asked of the speaker.

use crate::shown::{those, Shown};
use second::desk::{FINE, NO_ROOM};
use second::judge::{with_code, Wanted, COMMENT};
use second::voice::{words, Voiced, Voicing, LONGEST_VALUE};
use second::voicings::ENOUGH_ROOM;

/// What a voicing can be counted as, in the words of the report.
const NAMES: [&str; 73] = [
    "number without an exponent", "number with an exponent without a sign", "number with an exponent with a plus",
    "number with an exponent with a minus", "number without a sign", "number with a plus", "number with a minus", "exponent of 1 digit",
    "exponent of 2 digits", "exponent of 3 digits", "exponent with E", "exponent with e", "number of 16 digits", "integer without a sign",
    "integer with a plus", "integer with a minus", "integer with zeros in front", "integer of 254 bytes", "greatest integer",
    "least integer", "epoch with a month", "epoch with the day of the year", "second 60 with a month",
    "second 60 with the day of the year", "epoch without a fraction", "fraction of 1 digit", "fraction of 2 digits",
    "fraction of 3 digits", "fraction of 4 digits", "fraction of 5 digits", "fraction of 6 digits", "fraction of 7 digits",
    "fraction of 8 digits", "fraction of 9 digits", "29 February", "day 366", "text", "text of 254 bytes", "text with a blank at an end",
    "version", "comment", "comment of 254 bytes", "empty comment", "words of 259 bytes", "said in just the room needed",
    "said in 259 bytes", "said in more room", "NO_ROOM by one byte", "NO_ROOM with an empty buffer", "NO_ROOM with 258 bytes",
    "VALUE of a version", "VALUE of an integer", "VALUE of a number", "VALUE of an epoch", "empty version", "empty integer",
    "empty number", "empty epoch", "empty text", "VALUE for second 60 out of place", "VALUE for blanks about the value",
    "VALUE for a unit after the number", "VALUE for an integer by its length alone", "VALUE for a text by its length alone",
    "VALUE for a comment by its length alone", "VALUE for 255 bytes alone", "VALUE for a byte below 32 alone",
    "VALUE for a byte above 126 alone", "VALUE for a code without values", "VALUE for code 0", "VALUE for a code above 45",
    "VALUE for a code that is one in 8 or 16 bits", "VALUE with an empty buffer",
];

/// The places of names that belong together, by the first of them.
const EXPONENT: usize = 0;
const NUMBER_SIGN: usize = 4;
const EXPONENT_DIGITS: usize = 7;
const LETTER: usize = 10;
const SIXTEEN: usize = 12;
const INTEGER_SIGN: usize = 13;
const ZEROS: usize = 16;
const LONG_INTEGER: usize = 17;
const GREATEST: usize = 18;
const LEAST: usize = 19;
const EPOCH_FORM: usize = 20;
const SIXTY: usize = 22;
const FRACTION: usize = 24;
const LEAP_DAY: usize = 34;
const TEXT: usize = 36;
const LONG_TEXT: usize = 37;
const BLANK_END: usize = 38;
const VERSION: usize = 39;
const A_COMMENT: usize = 40;
const LONG_COMMENT: usize = 41;
const EMPTY_COMMENT: usize = 42;
const LONGEST: usize = 43;
const JUST: usize = 44;
const IN_ENOUGH: usize = 45;
const MORE: usize = 46;
const ONE_SHORT: usize = 47;
const NO_BUFFER: usize = 48;
const ONE_UNDER_ENOUGH: usize = 49;
const WRONG: usize = 50;
const EMPTY: usize = 54;
const STRAY_SIXTY: usize = 59;
const BLANKS: usize = 60;
const UNIT: usize = 61;
const TOO_LONG: usize = 62;
const ONE_TOO_LONG: usize = 65;
const ODD_BYTE: usize = 66;
const BARE_CODE: usize = 68;
const CODE_ZERO: usize = 69;
const CODE_ABOVE: usize = 70;
const CODE_IN_PART: usize = 71;
const VALUE_NO_BUFFER: usize = 72;

/// How many voicings were counted as each.
pub type Phrases = Shown<{ NAMES.len() }>;

pub fn phrases() -> Phrases {
    Shown::new("generated voicings by what they show", "voicings", NAMES)
}

/// What a voicing shows by what came of it. VALUE counts by its cause where there is something in the buffer that could have been touched.
pub fn things(voicing: &Voicing, voiced: &Voiced) -> Vec<usize> {
    match (voiced.reason, voicing.buffer.len()) {
        (FINE, size) => [said(voicing.code, &voicing.value), room(size, voiced.length as usize)].concat(),
        (NO_ROOM, size) => no_room(size, words(voicing.code, &voicing.value).map_or(0, |words| words.len())),
        (_, 0) => vec![VALUE_NO_BUFFER],
        _ => refused(voicing.code, &voicing.value),
    }
}

/// How much room there was for so many bytes.
fn room(size: usize, needed: usize) -> Vec<usize> {
    those([
        (LONGEST, needed == ENOUGH_ROOM),
        (JUST, size == needed),
        (IN_ENOUGH, size == ENOUGH_ROOM && size > needed),
        (MORE, size > needed),
    ])
}

/// How little room there was; an empty buffer counts as that alone.
fn no_room(size: usize, needed: usize) -> Vec<usize> {
    those([
        (NO_BUFFER, size == 0),
        (ONE_SHORT, size > 0 && size + 1 == needed),
        (ONE_UNDER_ENOUGH, size + 1 == ENOUGH_ROOM && needed == ENOUGH_ROOM),
    ])
}

/// What the look of a value that has words shows.
fn said(code: u32, value: &[u8]) -> Vec<usize> {
    let is_longest = value.len() == LONGEST_VALUE;
    match with_code(code).map(|word| word.wanted) {
        Some(Wanted::Number(_)) => number(value),
        Some(Wanted::Integer) => integer(value),
        Some(Wanted::Epoch) => epoch(value),
        Some(Wanted::Text) => {
            let has_blank = value.starts_with(b" ") || value.ends_with(b" ");
            those([(TEXT, true), (LONG_TEXT, is_longest), (BLANK_END, has_blank)])
        }
        Some(Wanted::Version) => vec![VERSION],
        _ => those([(A_COMMENT, !value.is_empty()), (LONG_COMMENT, is_longest), (EMPTY_COMMENT, value.is_empty())]),
    }
}

/// Whether a text begins with no sign, a plus or a minus, as 0 to 2.
fn sign(text: &[u8]) -> usize {
    match text.first() {
        Some(b'+') => 1,
        Some(b'-') => 2,
        _ => 0,
    }
}

fn digits(text: &[u8]) -> usize {
    text.iter().filter(|byte| byte.is_ascii_digit()).count()
}

fn number(value: &[u8]) -> Vec<usize> {
    let (front, power) = match value.iter().position(|byte| b"Ee".contains(byte)) {
        Some(at) => (&value[..at], Some(&value[at + 1..])),
        None => (value, None),
    };
    let exponent = power.map_or(vec![EXPONENT], |power| {
        vec![EXPONENT + 1 + sign(power), EXPONENT_DIGITS + digits(power) - 1, LETTER + usize::from(value.contains(&b'e'))]
    });
    [exponent, vec![NUMBER_SIGN + sign(front)], those([(SIXTEEN, digits(front) == 16)])].concat()
}

fn integer(value: &[u8]) -> Vec<usize> {
    let size = &value[usize::from(sign(value) > 0)..];
    those([
        (INTEGER_SIGN + sign(value), true),
        (ZEROS, size.len() > 1 && size[0] == b'0'),
        (LONG_INTEGER, value.len() == LONGEST_VALUE),
        (GREATEST, sign(value) < 2 && size.ends_with(b"2147483647")),
        (LEAST, sign(value) == 2 && size.ends_with(b"2147483648")),
    ])
}

/// The day of the year stands in three digits, so that the `T` comes two bytes earlier.
fn epoch(value: &[u8]) -> Vec<usize> {
    let by_day = usize::from(value[8] == b'T');
    let clock = if by_day == 1 { 9 } else { 11 };
    let fraction = value[clock + 8..].len().saturating_sub(1);
    those([
        (EPOCH_FORM + by_day, true),
        (SIXTY + by_day, value[clock..].starts_with(b"23:59:60")),
        (FRACTION + fraction, true),
        (LEAP_DAY, &value[4..10] == b"-02-29"),
        (LEAP_DAY + 1, &value[4..9] == b"-366T"),
    ])
}

/// Why there are no words.
fn refused(code: u32, value: &[u8]) -> Vec<usize> {
    let Some(word) = with_code(code) else { return no_code(code, value) };
    let is_comment = code == u32::from(COMMENT);
    if word.wanted == Wanted::Nothing && !is_comment {
        return those([(BARE_CODE, true)]);
    }
    let is_plain = !value.iter().any(|byte| is_odd(*byte));
    // Of the kinds an integer alone may be as long as it likes; a text and a comment may have any byte.
    let is_text = is_comment || word.wanted == Wanted::Text;
    if value.len() > LONGEST_VALUE {
        let is_right = is_plain && (is_text || word.wanted.is_met_by(value));
        let kind = if is_comment { 2 } else { usize::from(is_text) };
        return those([(TOO_LONG + kind, is_right), (ONE_TOO_LONG, is_right && value.len() == LONGEST_VALUE + 1)]);
    }
    if !is_plain {
        let has = |test: fn(&u8) -> bool| is_text && value.iter().any(test);
        return those([(ODD_BYTE, has(|byte| *byte < 32)), (ODD_BYTE + 1, has(|byte| *byte > 126))]);
    }
    wrong_kind(word.wanted, value)
}

fn is_odd(byte: u8) -> bool {
    !(32..=126).contains(&byte)
}

/// A code that is none, with a value that could have been one of another code.
fn no_code(code: u32, value: &[u8]) -> Vec<usize> {
    if value.len() > LONGEST_VALUE || value.iter().any(|byte| is_odd(*byte)) {
        return Vec::new();
    }
    let is_in_part = [code % (1 << 8), code % (1 << 16)].iter().any(|part| *part > 0 && with_code(*part).is_some());
    those([(CODE_ZERO, code == 0), (CODE_ABOVE, code > 0), (CODE_IN_PART, is_in_part)])
}

/// What a value of plain bytes that is not of its kind shows.
fn wrong_kind(wanted: Wanted, value: &[u8]) -> Vec<usize> {
    let kind = match wanted {
        Wanted::Version => 0,
        Wanted::Integer => 1,
        Wanted::Number(_) => 2,
        Wanted::Epoch => 3,
        // A text is wrong by being empty alone.
        Wanted::Text | Wanted::Nothing => return vec![EMPTY + 4],
    };
    let before_blank = value.split(|byte| *byte == b' ').next().unwrap_or_default();
    let has_unit = kind == 2 && before_blank.len() < value.len() && wanted.is_met_by(before_blank) && value.ends_with(b"]");
    those([
        (WRONG + kind, true),
        (EMPTY + kind, value.is_empty()),
        (STRAY_SIXTY, kind == 3 && is_right_before_sixty(value)),
        (BLANKS, wanted.is_met_by(value.trim_ascii())),
        (UNIT, has_unit),
    ])
}

/// Whether a wrong epoch has second 60, and is right with 59 in its place.
fn is_right_before_sixty(value: &[u8]) -> bool {
    let at = value.iter().position(|byte| *byte == b'T').map_or(0, |at| at + 7);
    value.get(at..at + 2) == Some(b"60") && Wanted::Epoch.is_met_by(&[&value[..at], b"59", &value[at + 2..]].concat())
}

#[cfg(test)]
mod tests {
    use super::*;
    use crate::items::{generated_value, Ask};
    use second::voice::voice;

    /// What a voicing is counted as, by name.
    fn shown(code: u32, value: &[u8], size: usize) -> Vec<&'static str> {
        let voicing = Voicing { code, value: value.to_vec(), buffer: vec![255; size] };
        let mut phrases = phrases();
        phrases.add(things(&voicing, &voice(&voicing)));
        (0..NAMES.len()).filter(|at| phrases.counts[*at] > 0).map(|at| NAMES[at]).collect()
    }

    /// The same of a value that is said, without its room.
    fn said_as(code: u32, value: &str) -> Vec<&'static str> {
        shown(code, value.as_bytes(), 500).into_iter().filter(|name| *name != "said in more room").collect()
    }

    fn refused_as(code: u32, value: &[u8]) -> Vec<&'static str> {
        shown(code, value, 1)
    }

    #[test]
    fn numbers_are_counted_by_their_look() {
        assert_eq!(said_as(10, "-1.5"), ["number without an exponent", "number with a minus"]);
        assert_eq!(
            said_as(10, "1.5E7"),
            ["number with an exponent without a sign", "number without a sign", "exponent of 1 digit", "exponent with E"]
        );
        assert_eq!(
            said_as(10, "+1.5e+07"),
            ["number with an exponent with a plus", "number with a plus", "exponent of 2 digits", "exponent with e"]
        );
        assert_eq!(
            said_as(35, "1.123456789012345E-007"),
            [
                "number with an exponent with a minus", "number without a sign", "exponent of 3 digits", "exponent with E",
                "number of 16 digits"
            ]
        );
    }

    #[test]
    fn integers_are_counted_by_their_look() {
        assert_eq!(said_as(43, "0"), ["integer without a sign"]);
        assert_eq!(said_as(43, "+2147483647"), ["integer with a plus", "greatest integer"]);
        assert_eq!(said_as(43, "-02147483648"), ["integer with a minus", "integer with zeros in front", "least integer"]);
        let longest = format!("-{}", "0".repeat(253));
        assert_eq!(
            said_as(43, &longest),
            ["integer with a minus", "integer with zeros in front", "integer of 254 bytes", "words of 259 bytes"]
        );
        assert_eq!(shown(43, longest.as_bytes(), 258), ["NO_ROOM by one byte", "NO_ROOM with 258 bytes"]);
    }

    #[test]
    fn epochs_are_counted_by_their_look() {
        assert_eq!(said_as(9, "2026-320T23:59:59"), ["epoch with the day of the year", "epoch without a fraction"]);
        assert_eq!(said_as(9, "2024-02-29T00:00:00.5"), ["epoch with a month", "fraction of 1 digit", "29 February"]);
        let second_60 = ["epoch with the day of the year", "second 60 with the day of the year", "fraction of 9 digits", "day 366"];
        assert_eq!(said_as(9, "2016-366T23:59:60.123456789"), second_60);
        assert_eq!(said_as(2, "2016-12-31T23:59:60"), ["epoch with a month", "second 60 with a month", "epoch without a fraction"]);
    }

    #[test]
    fn what_stands_as_it_is_is_counted_by_its_code() {
        assert_eq!(said_as(3, "1.0"), ["text"]);
        assert_eq!(said_as(42, " A"), ["text", "text with a blank at an end"]);
        assert_eq!(said_as(8, &"A".repeat(254)), ["text", "text of 254 bytes"]);
        assert_eq!(said_as(36, "1.0"), ["version"]);
        assert_eq!(said_as(45, "A"), ["comment"]);
        assert_eq!(said_as(45, &"A".repeat(254)), ["comment", "comment of 254 bytes"]);
        assert_eq!(said_as(45, ""), ["empty comment"]);
    }

    #[test]
    fn the_room_is_counted_by_what_was_needed() {
        assert_eq!(shown(1, b"1.0", 3), ["version", "said in just the room needed"]);
        assert_eq!(shown(1, b"1.0", 4), ["version", "said in more room"]);
        assert_eq!(shown(1, b"1.0", 259), ["version", "said in 259 bytes", "said in more room"]);
        assert_eq!(shown(1, b"1.0", 2), ["NO_ROOM by one byte"]);
        assert_eq!(shown(1, b"1.0", 1), [""; 0]);
        assert_eq!(shown(1, b"1.0", 0), ["NO_ROOM with an empty buffer"]);
        assert_eq!(shown(10, b"1", 0), ["NO_ROOM with an empty buffer"]);
        assert_eq!(shown(45, b"", 0), ["empty comment", "said in just the room needed"]);
        assert_eq!(shown(1, b"1", 0), ["VALUE with an empty buffer"]);
    }

    #[test]
    fn a_refusal_is_counted_by_its_cause() {
        assert_eq!(refused_as(1, b"1"), ["VALUE of a version"]);
        assert_eq!(refused_as(36, b""), ["VALUE of a version", "empty version"]);
        assert_eq!(refused_as(43, b"1.5"), ["VALUE of an integer"]);
        assert_eq!(refused_as(43, b" 1"), ["VALUE of an integer", "VALUE for blanks about the value"]);
        assert_eq!(refused_as(10, b"1.5 [KM]"), ["VALUE of a number", "VALUE for a unit after the number"]);
        assert_eq!(refused_as(10, b""), ["VALUE of a number", "empty number"]);
        assert_eq!(refused_as(9, b"2026-320T20:01:60.5"), ["VALUE of an epoch", "VALUE for second 60 out of place"]);
        assert_eq!(refused_as(9, b"2026-400T20:01:60"), ["VALUE of an epoch"]);
        assert_eq!(refused_as(9, b""), ["VALUE of an epoch", "empty epoch"]);
        assert_eq!(refused_as(3, b""), ["empty text"]);
        assert_eq!(refused_as(43, &[b'0'; 256]), ["VALUE for an integer by its length alone"]);
        assert_eq!(refused_as(3, &[b'0'; 255]), ["VALUE for a text by its length alone", "VALUE for 255 bytes alone"]);
        assert_eq!(refused_as(45, &[b'0'; 300]), ["VALUE for a comment by its length alone"]);
        assert_eq!(refused_as(45, &[0; 300]), [""; 0]);
        assert_eq!(refused_as(10, &[b'0'; 300]), [""; 0]);
        assert_eq!(refused_as(45, b"\x1f"), ["VALUE for a byte below 32 alone"]);
        assert_eq!(refused_as(3, b"A\x7f"), ["VALUE for a byte above 126 alone"]);
        assert_eq!(refused_as(10, b"1\x7f"), [""; 0]);
        assert_eq!(refused_as(37, b""), ["VALUE for a code without values"]);
        assert_eq!(refused_as(44, b"A"), ["VALUE for a code without values"]);
        assert_eq!(refused_as(0, b"A"), ["VALUE for code 0"]);
        assert_eq!(refused_as(46, b""), ["VALUE for a code above 45"]);
        assert_eq!(refused_as(256, b"A"), ["VALUE for a code above 45"]);
        assert_eq!(refused_as(266, b"1"), ["VALUE for a code above 45", "VALUE for a code that is one in 8 or 16 bits"]);
        assert_eq!(refused_as(u32::MAX, b"\0"), [""; 0]);
    }

    #[test]
    fn generated_values_show_everything_often_enough() {
        let seed = 1;
        let mut phrases = phrases();
        for item in (0..6_000).map(|turn| generated_value(seed, turn)) {
            let Ask::Voice(prompt) = &item.ask else { panic!("a value is to be said in words") };
            phrases.add(things(&prompt.voicing, &voice(&prompt.voicing)));
        }
        println!("seed {seed}: {}", phrases.words());
        // A tenth of the values of a whole run, and twice the floor, so that a run has some to spare.
        assert_eq!(phrases.rare(20), Vec::<String>::new());
    }
}
