//! Hears words: the value that they were said of. They are parted at their blanks, and what is left must be one of the few sentences that there are,
//! with figures in it that a value of the code's kind can have. Nothing of the speaker or of the judge is asked: codes, kinds and calendar are put
//! down anew. A hearer is a function of the words, so two values that are each heard from their own words cannot have the same ones.

use crate::desk::FINE;
use crate::voice::{Voiced, Voicing};

/// Why this must not be said of a value, in plain words. A refusal says nothing that could be heard.
pub fn fault(voicing: &Voicing, voiced: &Voiced) -> Option<String> {
    if voiced.reason != FINE {
        return None;
    }
    let Some(words) = voiced.buffer.get(..voiced.length as usize) else {
        return Some("the words are longer than the buffer".to_string());
    };
    match hear(voicing.code, words) {
        None => Some("the words are heard as no value".to_string()),
        Some(value) => {
            let is_same = value == with_great_letter(voicing.code, &voicing.value);
            (!is_same).then(|| format!("the words are heard as \"{}\"", value.escape_ascii()))
        }
    }
}

/// A number's exponent may have either letter, and the words do not tell which.
fn with_great_letter(code: u32, value: &[u8]) -> Vec<u8> {
    let great = |byte: &u8| if is_number_code(code) && *byte == b'e' { b'E' } else { *byte };
    value.iter().map(great).collect()
}

/// Document 01's numbers: the rest, save epochs.
fn is_number_code(code: u32) -> bool {
    matches!(code, 10..=28 | 30 | 31 | 33..=35)
}

/// The value of this code that has these words; an exponent's letter is heard as `E`.
pub fn hear(code: u32, words: &[u8]) -> Option<Vec<u8>> {
    let text = std::str::from_utf8(words).ok()?;
    let sentence: Vec<&str> = text.split(' ').collect();
    let value = match code {
        _ if is_number_code(code) => number(&sentence)?,
        43 => integer(&sentence)?,
        2 | 9 | 29 | 38..=41 => epoch(&sentence)?,
        1 | 36 => (text == "1.0").then(|| text.to_string())?,
        3..=8 | 32 | 42 => (!text.is_empty()).then(|| text.to_string())?,
        45 => text.to_string(),
        _ => return None,
    };
    let is_of_a_line = value.len() <= 254 && value.bytes().all(|byte| (b' '..=b'~').contains(&byte));
    is_of_a_line.then(|| value.into_bytes())
}

/// The sign that a sentence begins with, and what follows it.
fn sign<'s, 'w>(sentence: &'s [&'w str]) -> (&'static str, &'s [&'w str]) {
    match sentence {
        ["minus", rest @ ..] => ("-", rest),
        ["plus", rest @ ..] => ("+", rest),
        _ => ("", sentence),
    }
}

fn integer(sentence: &[&str]) -> Option<String> {
    match sign(sentence) {
        (sign, [size]) if is_digits(size) => Some(format!("{sign}{size}")).filter(|value| value.parse::<i32>().is_ok()),
        _ => None,
    }
}

fn number(sentence: &[&str]) -> Option<String> {
    match sign(sentence) {
        (sign, [size]) => is_decimal(size).then(|| format!("{sign}{size}")),
        (sign, [size, "times", "ten", "to", "the", power @ ..]) => {
            let is_right = is_decimal(size) && size.find('.') == Some(1);
            exponent(power).filter(|_| is_right).map(|power| format!("{sign}{size}E{power}"))
        }
        _ => None,
    }
}

fn exponent(sentence: &[&str]) -> Option<String> {
    match sign(sentence) {
        (sign, [size]) if is_digits(size) && size.len() <= 3 => Some(format!("{sign}{size}")),
        _ => None,
    }
}

/// At most 16 digits, or so many on both sides of one period.
fn is_decimal(text: &str) -> bool {
    text.splitn(2, '.').all(is_digits) && text.bytes().filter(u8::is_ascii_digit).count() <= 16
}

fn is_digits(text: &str) -> bool {
    !text.is_empty() && text.bytes().all(|byte| byte.is_ascii_digit())
}

fn epoch(sentence: &[&str]) -> Option<String> {
    match sentence {
        ["year", year, "month", month, "day", day, time @ ..] => {
            let day = day.strip_suffix(',')?;
            let last = last_of_month(figure(year, 4)?, figure(month, 2)?)?;
            (1..=last).contains(&figure(day, 2)?).then(|| clock(time).map(|clock| format!("{year}-{month}-{day}T{clock}")))?
        }
        ["year", year, "day", day, time @ ..] => {
            let day = day.strip_suffix(',')?;
            let last = 365 + leap_days(figure(year, 4)?)?;
            (1..=last).contains(&figure(day, 3)?).then(|| clock(time).map(|clock| format!("{year}-{day}T{clock}")))?
        }
        _ => None,
    }
}

/// What so many digits say.
fn figure(text: &str, count: usize) -> Option<u32> {
    Some(text).filter(|text| text.len() == count && is_digits(text))?.parse().ok()
}

/// How many days a year has over 365; the years begin with 1.
fn leap_days(year: u32) -> Option<u32> {
    let is_long = if year % 100 == 0 { year % 400 == 0 } else { year % 4 == 0 };
    (year > 0).then_some(u32::from(is_long))
}

fn last_of_month(year: u32, month: u32) -> Option<u32> {
    let leap_days = leap_days(year)?;
    match month {
        1 | 3 | 5 | 7 | 8 | 10 | 12 => Some(31),
        4 | 6 | 9 | 11 => Some(30),
        2 => Some(28 + leap_days),
        _ => None,
    }
}

/// A time of day, of which one alone has a second 60.
fn clock(time: &[&str]) -> Option<String> {
    let [hours, "hours", minutes, "minutes", seconds, "seconds"] = time else { return None };
    let (whole, part) = seconds.split_once('.').unwrap_or((seconds, "0"));
    let is_right = match (figure(hours, 2)?, figure(minutes, 2)?, figure(whole, 2)?) {
        (23, 59, 60) => true,
        (hours, minutes, seconds) => hours < 24 && minutes < 60 && seconds < 60,
    };
    (is_right && is_digits(part) && part.len() <= 9).then(|| format!("{hours}:{minutes}:{seconds}"))
}

#[cfg(test)]
mod tests {
    use super::*;
    use crate::clock::Time;
    use crate::judge::is_leap;
    use crate::voice::{voice, words};
    use crate::weigh;
    use std::collections::BTreeMap;

    fn heard(code: u32, words: &str) -> Option<String> {
        hear(code, words.as_bytes()).map(|value| String::from_utf8(value).expect("printable bytes"))
    }

    fn is_heard(code: u32, words: &str, value: &str) {
        assert_eq!(heard(code, words).as_deref(), Some(value), "{words}");
    }

    #[test]
    fn words_are_heard_as_their_value() {
        is_heard(10, "minus 2.0842611 times ten to the minus 02", "-2.0842611E-02");
        is_heard(23, "plus 2.5 times ten to the plus 300", "+2.5E+300");
        is_heard(30, "0.5 times ten to the 7", "0.5E7");
        is_heard(34, "12", "12");
        is_heard(43, "minus 007", "-007");
        is_heard(9, "year 2026 month 11 day 16, 20 hours 01 minutes 30.5 seconds", "2026-11-16T20:01:30.5");
        is_heard(41, "year 2026 day 320, 20 hours 01 minutes 30 seconds", "2026-320T20:01:30");
        is_heard(2, "year 2016 day 366, 23 hours 59 minutes 60.00 seconds", "2016-366T23:59:60.00");
        is_heard(3, "minus 5", "minus 5");
        is_heard(36, "1.0", "1.0");
        is_heard(45, " ", " ");
        is_heard(45, "", "");
    }

    #[test]
    fn no_other_words_are_heard() {
        for words in [
            "", " ", "minus", "minus ", "minus  2", "Minus 2", "minus2", "-2", "+2", "minus minus 2", "2 ", " 2", "2.", ".2", "2.0.1",
            "2E5", "2 times ten to the", "2 times ten to the ", "2 times ten to the  5", "2 times ten to the -5", "2 times ten to 5",
            "2 times 5", "2 times ten to the 5.0", "2 times ten to the 5 ", "2  times ten to the 5", "2 times ten to the minus", "two",
            "2 kilometres", "times ten to the 5", "2 times ten to the 5 times ten to the 5",
        ] {
            assert_eq!(heard(10, words), None, "{words}");
        }
        for words in ["", "minus", "7.0", "7 times ten to the 5", "-7", "plus -7", "7 7"] {
            assert_eq!(heard(43, words), None, "{words}");
        }
        let right = "year 2026 month 11 day 16, 20 hours 01 minutes 30.5 seconds";
        is_heard(9, right, "2026-11-16T20:01:30.5");
        for (old, new) in [
            ("16,", "16"),
            ("16, ", "16,"),
            (", ", ",  "),
            ("year ", ""),
            ("year", "Year"),
            ("2026", "26"),
            ("month 11", "month 1"),
            ("16,", "016,"),
            ("20 h", "2 h"),
            ("01 m", "1 m"),
            ("30.5", "30."),
            ("30.5", ".5"),
            ("30.5", "3.5"),
            ("30.5", "30.5.5"),
            (" seconds", ""),
            ("seconds", "second"),
            ("seconds", "seconds "),
            ("hours", "minutes"),
            ("minutes 30", "seconds 30"),
            ("month 11 ", ""),
            ("day 16, ", ""),
            ("20 hours ", ""),
        ] {
            assert_eq!(heard(9, &right.replacen(old, new, 1)), None, "{old} became {new}");
        }
        assert_eq!(heard(9, "year 2026 day 32, 20 hours 01 minutes 30 seconds"), None);
        assert_eq!(heard(9, "2026-11-16T20:01:30.5"), None);
        assert_eq!((heard(1, "1"), heard(36, "1.00"), heard(3, "")), (None, None, None));
        [0, 37, 44, 46, 266, u32::MAX].iter().for_each(|code| assert_eq!(heard(*code, "1.0"), None, "{code}"));
        assert_eq!(hear(45, b"\xff"), None);
    }

    #[test]
    fn words_of_no_value_are_not_heard() {
        for words in [
            "12345678901234567", "1.2345678901234567", "12.5 times ten to the 3", "1 times ten to the 3", "1.5 times ten to the 1000",
            "1.1234567890123456 times ten to the 1",
        ] {
            assert_eq!(heard(10, words), None, "{words}");
        }
        assert_eq!((heard(43, "2147483648"), heard(43, "minus 2147483649")), (None, None));
        for words in [
            "year 0000 day 001, 00 hours 00 minutes 00 seconds",
            "year 2026 day 366, 00 hours 00 minutes 00 seconds",
            "year 2000 day 367, 00 hours 00 minutes 00 seconds",
            "year 2000 day 000, 00 hours 00 minutes 00 seconds",
            "year 1900 month 02 day 29, 00 hours 00 minutes 00 seconds",
            "year 2000 month 02 day 30, 00 hours 00 minutes 00 seconds",
            "year 2000 month 13 day 01, 00 hours 00 minutes 00 seconds",
            "year 2000 month 00 day 01, 00 hours 00 minutes 00 seconds",
            "year 2000 day 001, 24 hours 00 minutes 00 seconds",
            "year 2000 day 001, 00 hours 60 minutes 00 seconds",
            "year 2000 day 001, 23 hours 58 minutes 60 seconds",
            "year 2000 day 001, 22 hours 59 minutes 60 seconds",
            "year 2000 day 001, 23 hours 59 minutes 61 seconds",
            "year 2000 day 001, 00 hours 00 minutes 00.1234567890 seconds",
        ] {
            assert_eq!(heard(9, words), None, "{words}");
        }
        for code in [3, 45] {
            assert_eq!(heard(code, &"A".repeat(254)), Some("A".repeat(254)));
            assert_eq!(heard(code, &"A".repeat(255)), None);
            ["\u{1f}", "\u{7f}", "\u{e9}"].iter().for_each(|words| assert_eq!(heard(code, words), None, "{words:?}"));
        }
        let zeros = "0".repeat(253);
        is_heard(43, &format!("minus {zeros}"), &format!("-{zeros}"));
        assert_eq!(heard(43, &format!("minus 0{zeros}")), None);
    }

    fn told(code: u32, value: &str, words: &str) -> Option<String> {
        let voicing = Voicing { code, value: value.as_bytes().to_vec(), buffer: Vec::new() };
        fault(&voicing, &Voiced { reason: FINE, length: words.len() as u32, buffer: words.as_bytes().to_vec() })
    }

    #[test]
    fn words_of_another_value_are_a_fault() {
        assert_eq!(told(10, "1.5e-5", "1.5 times ten to the minus 5"), None);
        assert_eq!(told(10, "1.5E-5", "1.5 times ten to the 5").as_deref(), Some("the words are heard as \"1.5E5\""));
        assert_eq!(told(3, "e", "E").as_deref(), Some("the words are heard as \"E\""));
        assert_eq!(told(10, "1.5", "one and a half").as_deref(), Some("the words are heard as no value"));
        let long = Voiced { reason: FINE, length: 4, buffer: b"1.5".to_vec() };
        let voicing = Voicing { code: 10, value: b"1.5".to_vec(), buffer: vec![0; 3] };
        assert_eq!(fault(&voicing, &long).as_deref(), Some("the words are longer than the buffer"));
        assert_eq!(fault(&voicing, &Voiced { reason: 12, ..long }), None);
        assert_eq!(fault(&voicing, &voice(&voicing)), None);
    }

    #[test]
    fn values_that_are_near_each_other_are_heard_apart() {
        for (code, one, other) in [
            (10, "1.5E2", "1.5E02"),
            (10, "1.5E2", "1.5E+2"),
            (10, "1.5E2", "1.5E-2"),
            (10, "1.5E+2", "1.5E-2"),
            (10, "1.5E2", "1.52"),
            (10, "1.5E-2", "-1.5E2"),
            (10, "1.5", "-1.5"),
            (10, "1.5", "+1.5"),
            (10, "+0", "-0"),
            (10, "1.5", "1.50"),
            (10, "1", "01"),
            (10, "1", "1.0"),
            (43, "7", "+7"),
            (43, "7", "-7"),
            (43, "7", "007"),
            (43, "-0", "0"),
            (9, "2026-11-16T20:01:30", "2026-320T20:01:30"),
            (9, "2026-11-12T20:01:30", "2026-12-11T20:01:30"),
            (9, "2026-320T20:01:30", "2026-320T20:30:01"),
            (9, "2026-320T20:01:30", "2026-320T01:20:30"),
            (9, "2026-320T20:01:30.5", "2026-320T20:01:30.50"),
            (9, "2026-320T23:59:60", "2026-321T00:00:00"),
            (3, "A", " A"),
            (3, "e", "E"),
            (45, "", " "),
            (45, "-1", "minus 1"),
        ] {
            let [said, not] = [one, other].map(|value| words(code, value.as_bytes()).expect("a value of its code"));
            assert_ne!(said, not, "{one} and {other}");
            assert_eq!(told(code, one, &said), None);
            assert!(told(code, one, &not).is_some() && told(code, other, &said).is_some(), "{one} and {other}");
        }
        assert_eq!(words(10, b"1.5E2"), words(10, b"1.5e2"));
    }

    /// Every text of so many of these bytes.
    fn each_text(bytes: &[u8], length: u32, mut hear: impl FnMut(&[u8])) {
        for turn in 0..bytes.len().pow(length) {
            let text: Vec<u8> = (0..length).map(|place| bytes[turn / bytes.len().pow(place) % bytes.len()]).collect();
            hear(&text);
        }
    }

    /// Says every short text of these bytes, and looks whether one of the words has been heard before; how many have words.
    fn all_apart(code: u32, bytes: &[u8], longest: u32, is_right: impl Fn(&[u8]) -> bool) -> usize {
        let mut values = BTreeMap::new();
        for length in 0..=longest {
            each_text(bytes, length, |value| {
                let said = words(code, value);
                assert_eq!(said.is_some(), is_right(value), "{}", value.escape_ascii());
                let Some(said) = said else { return };
                let great = with_great_letter(code, value);
                assert_eq!(hear(code, said.as_bytes()), Some(great.clone()), "{said}");
                let before = values.insert(said, great.clone());
                assert!(before.is_none_or(|other| other == great), "{}", value.escape_ascii());
            });
        }
        values.len()
    }

    #[test]
    fn all_short_values_are_heard_apart() {
        let numbers = all_apart(10, b"+-.05eE", 6, |value| weigh::number(value).is_some());
        assert!(numbers > 500, "{numbers} numbers");
        let is_integer = |value: &[u8]| std::str::from_utf8(value).is_ok_and(|text| text.parse::<i32>().is_ok());
        let integers = all_apart(43, b"+-. 07", 6, is_integer);
        assert!(integers > 150, "{integers} integers");
        let texts = all_apart(45, b"+-minus 1\x7f", 4, |value| !value.contains(&127));
        assert!(texts > 4_000, "{texts} comments");
    }

    #[test]
    fn every_day_of_some_years_has_words() {
        for year in [1, 1900, 1996, 2000, 2026, 2100, 9999] {
            let days = if is_leap(year) { 366 } else { 365 };
            let mut right: Vec<String> =
                (1..=days).flat_map(|day| [true, false].map(|by_day| Time::of_day(year, day).text(by_day, 0))).collect();
            right.sort();
            let by_month = (0..=13).flat_map(|month| (0..=32).map(move |day| format!("{year:04}-{month:02}-{day:02}T00:00:00")));
            let by_day = (0..=400).map(|day| format!("{year:04}-{day:03}T00:00:00"));
            let mut said: Vec<String> = by_month.chain(by_day).filter(|value| words(9, value.as_bytes()).is_some()).collect();
            said.iter().for_each(|value| assert_eq!(told(9, value, &words(9, value.as_bytes()).unwrap()), None));
            said.sort();
            assert_eq!(said, right);
        }
    }

    #[test]
    fn every_clock_of_two_digits_each_is_tried() {
        for (hours, minutes, seconds) in (0..=25).flat_map(|h| (0..=61).flat_map(move |m| (0..=61).map(move |s| (h, m, s)))) {
            let value = format!("2026-320T{hours:02}:{minutes:02}:{seconds:02}");
            let is_right = (hours < 24 && minutes < 60 && seconds < 60) || (hours, minutes, seconds) == (23, 59, 60);
            let due = format!("year 2026 day 320, {hours:02} hours {minutes:02} minutes {seconds:02} seconds");
            assert_eq!(words(2, value.as_bytes()), is_right.then_some(due), "{value}");
        }
    }
}
