//! Says a value in words. A value that is right in its kind is taken apart at the marks that its kind has, and the words are put together anew from
//! the parts, as a sentence with gaps. What was a mark in the value is nowhere in the words, so no mark can slip through.

use crate::desk::{FINE, NO_ROOM};
use crate::judge::{with_code, Reason, Wanted, COMMENT};

/// All that goes into a voicing.
#[derive(Clone, Debug)]
pub struct Voicing {
    pub code: u32,
    pub value: Vec<u8>,
    pub buffer: Vec<u8>,
}

/// All that comes out of a voicing; the length is 0 on a refusal.
#[derive(Clone, Debug, PartialEq, Eq)]
pub struct Voiced {
    pub reason: u32,
    pub length: u32,
    pub buffer: Vec<u8>,
}

/// A value has at most so many bytes.
pub const LONGEST_VALUE: usize = 254;

/// What a voicing comes to; the room is asked for after all else.
pub fn voice(voicing: &Voicing) -> Voiced {
    let Voicing { code, value, buffer } = voicing;
    let kept = |reason| Voiced { reason, length: 0, buffer: buffer.clone() };
    match words(*code, value) {
        None => kept(Reason::Value.number()),
        Some(words) => match buffer.get(words.len()..) {
            None => kept(NO_ROOM),
            Some(past) => Voiced { reason: FINE, length: words.len() as u32, buffer: [words.as_bytes(), past].concat() },
        },
    }
}

/// The words for a value of this code; nothing, if it is none.
pub fn words(code: u32, value: &[u8]) -> Option<String> {
    let wanted = with_code(code)?.wanted;
    let is_comment = code == COMMENT.into();
    let text = plain(value).filter(|_| is_comment || wanted.is_met_by(value))?;
    Some(match wanted {
        Wanted::Number(_) => number(text),
        Wanted::Integer => signed(text),
        Wanted::Epoch => epoch(text),
        Wanted::Text | Wanted::Version | Wanted::Nothing => text.to_string(),
    })
}

/// The value as text, if it could stand in a line.
fn plain(value: &[u8]) -> Option<&str> {
    let is_plain = value.len() <= LONGEST_VALUE && value.iter().all(|byte| (32..=126).contains(byte));
    std::str::from_utf8(value).ok().filter(|_| is_plain)
}

/// A number, or an integer, by its sign and what follows it.
fn signed(text: &str) -> String {
    match (text.strip_prefix('-'), text.strip_prefix('+')) {
        (Some(size), _) => format!("minus {size}"),
        (_, Some(size)) => format!("plus {size}"),
        _ => text.to_string(),
    }
}

/// A number, whose exponent has a sign of its own.
fn number(text: &str) -> String {
    match text.split_once(['E', 'e']) {
        Some((front, power)) => format!("{} times ten to the {}", signed(front), signed(power)),
        None => signed(text),
    }
}

/// An epoch of either form: one has a part more than the other.
fn epoch(text: &str) -> String {
    let parts: Vec<&str> = text.split(['-', 'T', ':']).collect();
    let (date, [hours, minutes, seconds]) = parts.split_last_chunk().expect("an epoch has a time of day");
    let day = match date {
        [year, month, day] => format!("year {year} month {month} day {day}"),
        [year, day] => format!("year {year} day {day}"),
        _ => unreachable!("an epoch has a date of two parts or three"),
    };
    format!("{day}, {hours} hours {minutes} minutes {seconds} seconds")
}

#[cfg(test)]
mod tests {
    use super::*;

    fn said(code: u32, value: &str) -> Option<String> {
        words(code, value.as_bytes())
    }

    fn is_said(code: u32, value: &str, expected: &str) {
        assert_eq!(said(code, value).as_deref(), Some(expected), "{value}");
    }

    #[test]
    fn numbers_have_two_signs_at_most() {
        is_said(10, "-2.0842611E-02", "minus 2.0842611 times ten to the minus 02");
        is_said(11, "+2.5e+300", "plus 2.5 times ten to the plus 300");
        is_said(12, "2.5E7", "2.5 times ten to the 7");
        is_said(13, "-2.5e7", "minus 2.5 times ten to the 7");
        is_said(14, "0.000", "0.000");
        is_said(17, "-0", "minus 0");
        is_said(35, "+0012.50", "plus 0012.50");
        [".5", "5.", "1E5", " 1.5", "1.5 ", "1.5 [KM]", "", "-", "1.5E1000", "12345678901234567"]
            .iter()
            .for_each(|value| assert_eq!(said(10, value), None, "{value}"));
    }

    #[test]
    fn integers_keep_their_zeros() {
        is_said(43, "7", "7");
        is_said(43, "-007", "minus 007");
        is_said(43, "+2147483647", "plus 2147483647");
        is_said(43, "-2147483648", "minus 2147483648");
        let zeros = "0".repeat(253);
        is_said(43, &format!("-{zeros}"), &format!("minus {zeros}"));
        ["2147483648", "7.0", "1e3", "", "+", " 7"].iter().for_each(|value| assert_eq!(said(43, value), None, "{value}"));
        assert_eq!(said(43, &format!("-0{zeros}")), None);
    }

    #[test]
    fn epochs_are_said_by_month_or_by_day() {
        is_said(9, "2026-11-16T20:01:30.5", "year 2026 month 11 day 16, 20 hours 01 minutes 30.5 seconds");
        is_said(2, "2026-320T20:01:30", "year 2026 day 320, 20 hours 01 minutes 30 seconds");
        is_said(29, "2016-366T23:59:60.000", "year 2016 day 366, 23 hours 59 minutes 60.000 seconds");
        is_said(41, "0001-01-01T00:00:00", "year 0001 month 01 day 01, 00 hours 00 minutes 00 seconds");
        ["2026-11-16T20:59:60", "2026-11-16T20:01:30Z", "2026-11-31T20:01:30", "2026-366T20:01:30", "2026-11-16", ""]
            .iter()
            .for_each(|value| assert_eq!(said(38, value), None, "{value}"));
    }

    #[test]
    fn texts_versions_and_comments_are_said_as_they_stand() {
        [3, 4, 5, 6, 7, 8, 32, 42, 45].iter().for_each(|code| is_said(*code, " -1.5E-2 T: ", " -1.5E-2 T: "));
        [1, 36].iter().for_each(|code| is_said(*code, "1.0", "1.0"));
        is_said(45, "", "");
        assert_eq!(said(3, ""), None);
        assert_eq!(said(1, "1.00"), None);
    }

    #[test]
    fn no_other_code_has_words() {
        for code in [0, 37, 44, 46, 47, 255, 256, 257, 301, 65_581, 2_147_483_693, u32::MAX] {
            ["", "1.0", "A"].iter().for_each(|value| assert_eq!(said(code, value), None, "{code}"));
        }
    }

    #[test]
    fn a_value_is_one_that_a_line_can_hold() {
        is_said(45, &"~".repeat(254), &"~".repeat(254));
        assert_eq!(said(45, &"~".repeat(255)), None);
        (0..=255u8).for_each(|byte| assert_eq!(words(3, &[b'A', byte]).is_some(), (32..=126).contains(&byte), "{byte}"));
    }

    #[test]
    fn only_what_fits_is_laid() {
        let voiced = |code, value: &str, buffer: &[u8]| {
            let Voiced { reason, length, buffer } = voice(&Voicing { code, value: value.as_bytes().to_vec(), buffer: buffer.to_vec() });
            (reason, length, buffer)
        };
        assert_eq!(voiced(10, "-1", b"1234567"), (FINE, 7, b"minus 1".to_vec()));
        assert_eq!(voiced(10, "-1", b"123456789"), (FINE, 7, b"minus 189".to_vec()));
        assert_eq!(voiced(10, "-1", b"123456"), (NO_ROOM, 0, b"123456".to_vec()));
        assert_eq!(voiced(10, "-1", b""), (NO_ROOM, 0, Vec::new()));
        assert_eq!(voiced(10, "-", b""), (8, 0, Vec::new()));
        assert_eq!(voiced(10, "-", b"123456789"), (8, 0, b"123456789".to_vec()));
        assert_eq!(voiced(45, "", b""), (FINE, 0, Vec::new()));
        assert_eq!(voiced(45, "", b"12"), (FINE, 0, b"12".to_vec()));
    }
}
