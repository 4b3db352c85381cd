//! Cases about saying a value in words: the words of each kind, what has none, and what a buffer is then.

use crate::desk::{FINE, NO_ROOM};
use crate::judge::Reason;
use crate::voice::{Voiced, Voicing};
use std::collections::BTreeSet;

/// One voicing, and what must come of it.
#[derive(Clone, Debug)]
pub struct VoiceCase {
    pub name: String,
    pub voicing: Voicing,
    pub want: Voiced,
}

/// All fixed cases about saying a value in words.
pub fn voicings() -> Vec<VoiceCase> {
    let mut book = VoiceBook { cases: Vec::new() };
    issue(&mut book);
    numbers(&mut book);
    exponents(&mut book);
    counts_of_digits(&mut book);
    no_numbers(&mut book);
    integers(&mut book);
    long_integers(&mut book);
    no_integers(&mut book);
    epochs(&mut book);
    fractions(&mut book);
    months(&mut book);
    sixties(&mut book);
    no_epochs(&mut book);
    texts(&mut book);
    versions(&mut book);
    comments(&mut book);
    single_bytes(&mut book);
    lengths(&mut book);
    codes(&mut book);
    blanks_and_units(&mut book);
    rooms(&mut book);
    book.cases
}

/// The cases as they are gathered.
struct VoiceBook {
    cases: Vec<VoiceCase>,
}

/// So many bytes are always room enough.
const ENOUGH: usize = 259;

/// Codes of each kind that stand for the others where a case is not about codes.
const NUMBER: u32 = 10;
const INTEGER: u32 = 43;
const EPOCH: u32 = 9;
const TEXT: u32 = 3;
const COMMENT: u32 = 45;

/// Old bytes of a buffer, none of them one that words have, and each unlike those about it, so that a touched one shows.
fn lent(size: usize) -> Vec<u8> {
    (0..size).map(|at| (at * 37 % 127) as u8 + 128).collect()
}

impl VoiceBook {
    fn add(&mut self, group: &str, code: u32, value: &[u8], size: usize, (reason, words): (u32, &[u8])) {
        let name = format!("{group}: {} of code {code} into {size} bytes", short(value));
        let want = Voiced { reason, length: words.len() as u32, buffer: [words, &lent(size)[words.len()..]].concat() };
        self.cases.push(VoiceCase { name, voicing: Voicing { code, value: value.to_vec(), buffer: lent(size) }, want });
    }

    /// A value that has these words: in just the room needed, in more of it, and not in less.
    fn says(&mut self, group: &str, code: u32, value: &[u8], words: &[u8]) {
        let needed = words.len();
        for size in BTreeSet::from([needed, needed + 7, ENOUGH]) {
            self.add(group, code, value, size, (FINE, words));
        }
        for size in (0..needed).filter(|size| *size == 0 || size + 1 == needed) {
            self.add(group, code, value, size, (NO_ROOM, b""));
        }
    }

    /// A value that has no words in whatever room; the room is asked for last.
    fn falls(&mut self, group: &str, code: u32, value: &[u8]) {
        for size in [0, 1, 40, ENOUGH + 1] {
            self.add(group, code, value, size, (Reason::Value.number(), b""));
        }
    }

    fn number(&mut self, value: &str, words: &str) {
        self.says("number", NUMBER, value.as_bytes(), words.as_bytes());
    }

    fn integer(&mut self, value: &str, words: &str) {
        self.says("integer", INTEGER, value.as_bytes(), words.as_bytes());
    }

    fn epoch(&mut self, value: &str, words: &str) {
        self.says("epoch", EPOCH, value.as_bytes(), words.as_bytes());
    }

    /// A text and a comment, both as they stand.
    fn stands(&mut self, group: &str, value: &[u8]) {
        [TEXT, COMMENT].iter().for_each(|code| self.says(group, *code, value, value));
    }

    fn fall(&mut self, group: &str, code: u32, values: &[&str]) {
        values.iter().for_each(|value| self.falls(group, code, value.as_bytes()));
    }
}

/// A value in a name; of a long one its front, its end and its length.
fn short(value: &[u8]) -> String {
    match (value.get(..50), value.last_chunk::<12>()) {
        (Some(front), Some(end)) if value.len() > 70 => {
            format!("\"{}\" and so on to \"{}\", {} bytes", front.escape_ascii(), end.escape_ascii(), value.len())
        }
        _ => format!("\"{}\"", value.escape_ascii()),
    }
}

/// The issue's own examples.
fn issue(book: &mut VoiceBook) {
    book.number("-2.0842611E-02", "minus 2.0842611 times ten to the minus 02");
    book.epoch("2026-11-16T20:01:30.5", "year 2026 month 11 day 16, 20 hours 01 minutes 30.5 seconds");
    book.epoch("2026-320T20:01:30", "year 2026 day 320, 20 hours 01 minutes 30 seconds");
    book.fall("issue", NUMBER, &[" 1.5", "1.5 [KM]", ""]);
}

/// Digits and period as they stand, with each sign and without one.
fn numbers(book: &mut VoiceBook) {
    for size in [
        "0", "1", "9", "10", "00", "007", "0.0", "0.5", "00.50", "1.0", "12.25", "6503.514000", "3.141592653589793", "0.000000000000001",
        "123456789012345.6", "1234567890123456", "0000000000000000", "9999999999999999", "000000000000000.0",
    ] {
        book.number(size, size);
        book.number(&format!("-{size}"), &format!("minus {size}"));
        book.number(&format!("+{size}"), &format!("plus {size}"));
    }
}

/// One to three digits of an exponent with every sign before and after the letter, which may be either.
fn exponents(book: &mut VoiceBook) {
    for (sign, said) in [("", ""), ("-", "minus "), ("+", "plus ")] {
        for letter in ["E", "e"] {
            for power in ["0", "7", "00", "02", "10", "99", "000", "002", "010", "100", "999"] {
                book.number(&format!("{sign}2.5{letter}{power}"), &format!("{said}2.5 times ten to the {power}"));
                book.number(&format!("{sign}2.5{letter}-{power}"), &format!("{said}2.5 times ten to the minus {power}"));
                book.number(&format!("{sign}2.5{letter}+{power}"), &format!("{said}2.5 times ten to the plus {power}"));
            }
        }
    }
    book.number("0.0E0", "0.0 times ten to the 0");
    book.number("9.123456789012345e-999", "9.123456789012345 times ten to the minus 999");
    book.number("-0.000000000000000E+000", "minus 0.000000000000000 times ten to the plus 000");
    book.number("-1.234567890123456E-123", "minus 1.234567890123456 times ten to the minus 123");
}

/// 16 digits stand and 17 don't, wherever the period is.
fn counts_of_digits(book: &mut VoiceBook) {
    for before in 1..=16 {
        let digits = "1234567890123456";
        let value = format!("{}.{}", &digits[..before], &digits[before..]);
        let value = value.trim_end_matches('.');
        book.says("16 digits", 23, value.as_bytes(), value.as_bytes());
        book.falls("17 digits", 23, format!("{value}{}", if before == 16 { "7" } else { "8" }).as_bytes());
        book.falls("17 digits", 23, format!("0{value}").as_bytes());
    }
    book.says("15 digits after the period", 23, b"1.123456789012345E1", b"1.123456789012345 times ten to the 1");
    book.falls("16 digits after the period", 23, b"1.1234567890123456E1");
}

fn no_numbers(book: &mut VoiceBook) {
    book.fall(
        "no number",
        NUMBER,
        &[
            " ", "-", "+", ".", "E", "e5", ".5", "-.5", "5.", "+5.", "--1", "+-1", "-+1", "- 1", "1-", "1E5", "1e-5", "12.5E3", "1.E3",
            ".5E3", "1.5E", "1.5E-", "1.5E+", "1.5E1000", "1.5E-1000", "1.5E--1", "1.5E+-1", "1.5E 1", "1.5 E1", "1.5E1.0", "1.5EE1",
            "1.5E1E1", "1.5F3", "1.5d3", "1,5", "1.2.3", "1..2", "1 2", "0x1F", "NaN", "inf", "A", "minus 1",
            "minus 2.5 times ten to the 7", "2000-01-01T00:00:00", "00000000000000001",
        ],
    );
}

/// Signs and leading zeros as they stand, to both ends.
fn integers(book: &mut VoiceBook) {
    for (value, words) in [
        ("0", "0"),
        ("-0", "minus 0"),
        ("+0", "plus 0"),
        ("7", "7"),
        ("-7", "minus 7"),
        ("+7", "plus 7"),
        ("10", "10"),
        ("007", "007"),
        ("-007", "minus 007"),
        ("+007", "plus 007"),
        ("2147483646", "2147483646"),
        ("2147483647", "2147483647"),
        ("+2147483647", "plus 2147483647"),
        ("-2147483647", "minus 2147483647"),
        ("-2147483648", "minus 2147483648"),
        ("02147483647", "02147483647"),
        ("-02147483648", "minus 02147483648"),
        ("+000000000000000002147483647", "plus 000000000000000002147483647"),
        ("00000000000000000", "00000000000000000"),
    ] {
        book.integer(value, words);
    }
}

/// Zeros up to 254 bytes, and one more than that.
fn long_integers(book: &mut VoiceBook) {
    for digits in ["0", "7", "2147483647"] {
        for length in [100, 252, 253, 254] {
            let zeros = |front: usize| "0".repeat(length - front - digits.len());
            let [bare, signed] = [0, 1].map(|front| format!("{}{digits}", zeros(front)));
            book.integer(&bare, &bare);
            book.integer(&format!("-{signed}"), &format!("minus {signed}"));
            book.integer(&format!("+{signed}"), &format!("plus {signed}"));
        }
        for length in [255, 256, 257, 258, 259, 260, 510, 511, 65_536 + 10, 65_536 + 254] {
            for sign in ["", "-", "+"] {
                let zeros = "0".repeat(length - sign.len() - digits.len());
                book.falls("long integer", INTEGER, format!("{sign}{zeros}{digits}").as_bytes());
            }
        }
    }
    let least = format!("-{}2147483648", "0".repeat(243));
    book.integer(&least, &format!("minus {}2147483648", "0".repeat(243)));
    let one_less = format!("-{}2147483649", "0".repeat(243));
    let one_more = format!("{}2147483648", "0".repeat(244));
    book.fall("long integer", INTEGER, &[&one_less, &one_more, &format!("+{}2147483648", "0".repeat(243))]);
}

fn no_integers(book: &mut VoiceBook) {
    book.fall(
        "no integer",
        INTEGER,
        &[
            "", " ", "-", "+", "--7", "+-7", "- 7", "7-", "7.", "7.0", ".7", "1e3", "1.0E3", "A", "7 7", " 7", "7 ", "7 [KM]", "0x7",
            "1,000", "minus 7", "2147483648", "+2147483648", "-2147483649", "2147483650", "3000000000", "4294967295", "4294967296",
            "4294967303", "-4294967289", "9999999999", "10000000000", "9223372036854775807", "18446744073709551623",
            "-18446744073709551616",
        ],
    );
}

/// Both forms, at the edges of each part.
fn epochs(book: &mut VoiceBook) {
    for (value, words) in [
        ("0001-01-01T00:00:00", "year 0001 month 01 day 01, 00 hours 00 minutes 00 seconds"),
        ("0001-001T00:00:00", "year 0001 day 001, 00 hours 00 minutes 00 seconds"),
        ("9999-12-31T23:59:59.999999999", "year 9999 month 12 day 31, 23 hours 59 minutes 59.999999999 seconds"),
        ("9999-365T23:59:59.999999999", "year 9999 day 365, 23 hours 59 minutes 59.999999999 seconds"),
        ("2001-02-03T04:05:06", "year 2001 month 02 day 03, 04 hours 05 minutes 06 seconds"),
        ("2012-11-10T09:08:07.6", "year 2012 month 11 day 10, 09 hours 08 minutes 07.6 seconds"),
        ("1998-045T12:34:56", "year 1998 day 045, 12 hours 34 minutes 56 seconds"),
        ("1998-100T10:10:10.10", "year 1998 day 100, 10 hours 10 minutes 10.10 seconds"),
        ("2000-02-29T00:00:00", "year 2000 month 02 day 29, 00 hours 00 minutes 00 seconds"),
        ("2024-02-29T23:00:00", "year 2024 month 02 day 29, 23 hours 00 minutes 00 seconds"),
        ("2000-366T00:59:00", "year 2000 day 366, 00 hours 59 minutes 00 seconds"),
        ("2000-060T00:00:59", "year 2000 day 060, 00 hours 00 minutes 59 seconds"),
    ] {
        book.epoch(value, words);
    }
}

/// A fraction of one to nine digits, its zeros as they stand.
fn fractions(book: &mut VoiceBook) {
    book.epoch("2026-320T20:01:30.000000001", "year 2026 day 320, 20 hours 01 minutes 30.000000001 seconds");
    for digits in ["123456789", "000000000", "500000000", "999999999"] {
        for count in 1..=9 {
            let part = &digits[..count];
            book.says(
                "fraction",
                2,
                format!("2026-11-16T20:01:30.{part}").as_bytes(),
                format!("year 2026 month 11 day 16, 20 hours 01 minutes 30.{part} seconds").as_bytes(),
            );
            book.says(
                "fraction",
                41,
                format!("2026-320T20:01:00.{part}").as_bytes(),
                format!("year 2026 day 320, 20 hours 01 minutes 00.{part} seconds").as_bytes(),
            );
        }
        book.falls("fraction of ten digits", 2, format!("2026-11-16T20:01:30.{digits}0").as_bytes());
        book.falls("fraction of ten digits", 2, format!("2026-320T20:01:30.{digits}1").as_bytes());
    }
}

/// The last day of every month stands, and the one after it doesn't; the same for years.
fn months(book: &mut VoiceBook) {
    for (year, lengths, days) in [
        ("2000", [31, 29, 31, 30, 31, 30, 31, 31, 30, 31, 30, 31], 366),
        ("2024", [31, 29, 31, 30, 31, 30, 31, 31, 30, 31, 30, 31], 366),
        ("1900", [31, 28, 31, 30, 31, 30, 31, 31, 30, 31, 30, 31], 365),
        ("2026", [31, 28, 31, 30, 31, 30, 31, 31, 30, 31, 30, 31], 365),
    ] {
        for (month, days) in (1..).zip(lengths) {
            book.says(
                "last of the month",
                40,
                format!("{year}-{month:02}-{days}T12:00:00").as_bytes(),
                format!("year {year} month {month:02} day {days}, 12 hours 00 minutes 00 seconds").as_bytes(),
            );
            [0, days + 1]
                .iter()
                .for_each(|day| book.falls("not in the month", 40, format!("{year}-{month:02}-{day:02}T12:00:00").as_bytes()));
        }
        book.says(
            "last of the year",
            40,
            format!("{year}-{days}T12:00:00").as_bytes(),
            format!("year {year} day {days}, 12 hours 00 minutes 00 seconds").as_bytes(),
        );
        [0, days + 1].iter().for_each(|day| book.falls("not in the year", 40, format!("{year}-{day:03}T12:00:00").as_bytes()));
        [0, 13].iter().for_each(|month| book.falls("no month", 40, format!("{year}-{month:02}-01T12:00:00").as_bytes()));
    }
}

/// Second 60 stands at 23:59 on any date and with any code, and nowhere else.
fn sixties(book: &mut VoiceBook) {
    for code in [2, 9, 29, 38, 39, 40, 41] {
        for (value, words) in [
            ("2016-12-31T23:59:60", "year 2016 month 12 day 31, 23 hours 59 minutes 60 seconds"),
            ("2016-366T23:59:60", "year 2016 day 366, 23 hours 59 minutes 60 seconds"),
            ("2015-03-17T23:59:60.5", "year 2015 month 03 day 17, 23 hours 59 minutes 60.5 seconds"),
            ("0001-001T23:59:60.999999999", "year 0001 day 001, 23 hours 59 minutes 60.999999999 seconds"),
            ("9999-12-31T23:59:60.0", "year 9999 month 12 day 31, 23 hours 59 minutes 60.0 seconds"),
        ] {
            book.says("second 60", code, value.as_bytes(), words.as_bytes());
        }
        let out_of_place = [
            "2016-12-31T22:59:60", "2016-12-31T23:58:60", "2016-12-31T00:00:60", "2016-12-31T23:00:60", "2016-12-31T00:59:60",
            "2016-366T22:59:60", "2016-366T23:58:60", "2016-366T20:01:60", "2016-12-31T23:59:61", "2016-12-31T23:59:62",
            "2016-12-31T24:59:60", "2016-12-31T23:60:60", "2015-366T23:59:60", "2015-02-29T23:59:60", "2016-12-31T23:59:60.",
            "2016-12-31T23:59:600",
        ];
        book.fall("second 60 out of place", code, &out_of_place);
    }
}

fn no_epochs(book: &mut VoiceBook) {
    book.fall(
        "no epoch",
        EPOCH,
        &[
            "", " ", "T", "-", "0000-01-01T00:00:00", "0000-001T00:00:00", "2000-01-01T24:00:00", "2000-01-01T00:60:00",
            "2000-001T24:00:00", "2000-001T00:60:00", "2000-01-01T00:00:00Z", "2000-01-01T00:00:00 ", " 2000-01-01T00:00:00",
            "2000-01-01 00:00:00", "2000-01-01t00:00:00", "2000-1-1T00:00:00", "2000-01-1T00:00:00", "2000-01T00:00:00", "2000-1T00:00:00",
            "2000-0001T00:00:00", "02000-01-01T00:00:00", "200-01-01T00:00:00", "+2000-01-01T00:00:00", "-2000-01-01T00:00:00",
            "2000-01-01T00:00", "2000-01-01T00", "2000-01-01T", "2000-01-01", "00:00:00", "T00:00:00", "2000-01-01T0:00:00",
            "2000-01-01T00:0:00", "2000-01-01T00:00:0", "2000-01-01T000000", "20000101T00:00:00", "2000/01/01T00:00:00",
            "2000-01-01T00.00.00", "2000-01-01T00:00:00.", "2000-01-01T00:00:00,5", "2000-01-01T00:00:00.5.5", "2000-01-01T00:00:00.-5",
            "2000-01-01T00:00:00.5Z", "2000-01-01T00:00:00+00:00", "2000-01-01TT00:00:00", "2000-01-01T00:00:00:00",
            "2000-01-01-01T00:00:00", "1.5", "A", "year 2000 day 001, 00 hours 00 minutes 00 seconds",
        ],
    );
}

/// Texts and comments as they stand, though they look like something else.
fn texts(book: &mut VoiceBook) {
    for value in [
        "A", "a b", "UTC", "EARTH BARYCENTER", "1998-057A", "-", "+5", "1.5E-02", "-2.0842611e-02", "2026-11-16T20:01:30.5",
        "2026-320T20:01:30", "1.0", " ", "   ", " A", "A ", " A ", "A  B", "=", "a=b", "[KM]", "1.5 [KM]", "~", "!", "\\", "\"", "minus 5",
        "plus 5", "E", "T", ":", ",", "year 2026 day 320, 20 hours 01 minutes 30 seconds",
    ] {
        book.stands("text", value.as_bytes());
    }
    let all: Vec<u8> = (32..=126).collect();
    book.stands("every byte of a line", &all);
    [3, 4, 5, 6, 7, 8, 32, 42].iter().for_each(|code| book.falls("empty text", *code, b""));
}

fn versions(book: &mut VoiceBook) {
    for code in [1, 36] {
        book.says("version", code, b"1.0", b"1.0");
        let others =
            ["", "1", "1.", ".0", "1.00", "01.0", "2.0", "1.1", "0.0", "+1.0", "-1.0", "1.0E0", "1,0", " 1.0", "1.0 ", "1.0 [KM]", "A"];
        book.fall("no version", code, &others);
    }
}

fn comments(book: &mut VoiceBook) {
    book.says("comment", COMMENT, b"", b"");
    book.says("comment", COMMENT, b"GEOCENTRIC, CARTESIAN, EARTH FIXED", b"GEOCENTRIC, CARTESIAN, EARTH FIXED");
    book.says("comment", COMMENT, b"$ITIM  = 1998 OCT 09 22:26:18.40000000", b"$ITIM  = 1998 OCT 09 22:26:18.40000000");
}

/// Every byte alone, at the front, in the middle and at the end of a text and a comment, and beside a digit of each other kind.
fn single_bytes(book: &mut VoiceBook) {
    for byte in 0..=255u8 {
        for (place, value) in
            [("alone", vec![byte]), ("first", vec![byte, b'A']), ("within", vec![b'A', byte, b'A']), ("last", vec![b'A', byte])]
        {
            let group = format!("byte {place}");
            match byte {
                32..=126 => book.stands(&group, &value),
                _ => [TEXT, COMMENT].iter().for_each(|code| book.falls(&group, *code, &value)),
            }
        }
        for (code, front, back) in [
            (NUMBER, "1", "1"),
            (NUMBER, "1.5E", "1"),
            (INTEGER, "1", "1"),
            (EPOCH, "2000-01-01", "00:00:00"),
            (EPOCH, "2000-01-01T00:00:00", "5"),
        ] {
            let value = [front.as_bytes(), &[byte], back.as_bytes()].concat();
            let between = char::from(byte);
            let words = match (byte, front) {
                (b'0'..=b'9' | b'.', "1") if code == NUMBER => Some(format!("1{between}1")),
                (b'0'..=b'9', "1") => Some(format!("1{between}1")),
                (b'0'..=b'9', "1.5E") => Some(format!("1.5 times ten to the {between}1")),
                (b'-', "1.5E") => Some("1.5 times ten to the minus 1".to_string()),
                (b'+', "1.5E") => Some("1.5 times ten to the plus 1".to_string()),
                (b'T', "2000-01-01") => Some("year 2000 month 01 day 01, 00 hours 00 minutes 00 seconds".to_string()),
                (b'.', "2000-01-01T00:00:00") => Some("year 2000 month 01 day 01, 00 hours 00 minutes 00.5 seconds".to_string()),
                _ => None,
            };
            match words {
                Some(words) => book.says("byte between", code, &value, words.as_bytes()),
                None => book.falls("byte between", code, &value),
            }
        }
    }
}

/// 254 bytes stand and 255 don't, with whatever code; some of these lengths are small in fewer bits.
fn lengths(book: &mut VoiceBook) {
    for length in [1, 2, 127, 128, 253, 254] {
        book.stands("length", &vec![b'A'; length]);
        book.stands("blanks", &vec![b' '; length]);
    }
    for length in [255, 256, 257, 258, 259, 260, 300, 510, 511, 512, 65_535, 65_536, 65_537, 65_539, 65_536 + 254, 131_073] {
        [TEXT, COMMENT].iter().for_each(|code| book.falls("length", *code, &vec![b'A'; length]));
        for (code, front) in [(1, "1.0"), (NUMBER, "1.5"), (INTEGER, "7"), (EPOCH, "2000-001T00:00:00")] {
            for byte in [b' ', b'0', 0] {
                book.falls("length", code, &[front.as_bytes(), &vec![byte; length - front.len()]].concat());
            }
        }
    }
    // A byte that no line has, at the very end.
    let long = |byte: u8| [&[b'A'; 253][..], &[byte]].concat();
    book.stands("last byte", &long(126));
    [0, 31, 127, 255].iter().for_each(|byte| [TEXT, COMMENT].iter().for_each(|code| book.falls("last byte", *code, &long(*byte))));
}

/// Codes that are none; many are small in fewer bits.
const NO_CODES: [u32; 40] = [
    46, 47, 48, 49, 50, 51, 52, 53, 54, 55, 56, 57, 58, 59, 60, 74, 109, 128, 173, 255, 256, 257, 259, 266, 299, 301, 511, 65_535, 65_536,
    65_546, 65_579, 65_581, 16_777_226, 2_147_483_647, 2_147_483_648, 2_147_483_658, 2_147_483_693, 4_294_967_286, 4_294_967_251,
    4_294_967_295,
];

/// Every code with a value of every kind. The kinds are document 01's, code by code.
fn codes(book: &mut VoiceBook) {
    const KINDS: &[u8; 46] = b".VETTTTTTENNNNNNNNNNNNNNNNNNNENNTNNNV.EEEETI.C";
    // What each value is said as by each kind; no other kind says it.
    let probes: [(&str, &[(u8, &str)]); 12] = [
        ("", &[(b'C', "")]),
        ("A", &[(b'T', "A"), (b'C', "A")]),
        ("1.0", &[(b'V', "1.0"), (b'T', "1.0"), (b'C', "1.0"), (b'N', "1.0")]),
        ("7", &[(b'T', "7"), (b'C', "7"), (b'N', "7"), (b'I', "7")]),
        ("-07", &[(b'T', "-07"), (b'C', "-07"), (b'N', "minus 07"), (b'I', "minus 07")]),
        ("+7", &[(b'T', "+7"), (b'C', "+7"), (b'N', "plus 7"), (b'I', "plus 7")]),
        ("3000000000", &[(b'T', "3000000000"), (b'C', "3000000000"), (b'N', "3000000000")]),
        ("00000000000000007", &[(b'T', "00000000000000007"), (b'C', "00000000000000007"), (b'I', "00000000000000007")]),
        ("+1.5e-02", &[(b'T', "+1.5e-02"), (b'C', "+1.5e-02"), (b'N', "plus 1.5 times ten to the minus 02")]),
        (
            "2016-12-31T23:59:60",
            &[
                (b'T', "2016-12-31T23:59:60"),
                (b'C', "2016-12-31T23:59:60"),
                (b'E', "year 2016 month 12 day 31, 23 hours 59 minutes 60 seconds"),
            ],
        ),
        (
            "2016-366T00:00:00.5",
            &[(b'T', "2016-366T00:00:00.5"), (b'C', "2016-366T00:00:00.5"), (b'E', "year 2016 day 366, 00 hours 00 minutes 00.5 seconds")],
        ),
        ("2016-12-31T22:59:60", &[(b'T', "2016-12-31T22:59:60"), (b'C', "2016-12-31T22:59:60")]),
    ];
    for (value, said) in probes {
        for (code, kind) in (0..).zip(KINDS) {
            match said.iter().find(|(own, _)| own == kind) {
                Some((_, words)) => book.says("code", code, value.as_bytes(), words.as_bytes()),
                None => book.falls("code", code, value.as_bytes()),
            }
        }
        NO_CODES.iter().for_each(|code| book.falls("code", *code, value.as_bytes()));
    }
    for code in [0, 37, 44, 46, 4_294_967_295] {
        book.falls("no code for a long value", code, &[b'A'; 255]);
        book.falls("no code for an odd byte", code, b"\0");
    }
}

/// The value is lent as it stands in the feed: what stands about it there is no part of it.
fn blanks_and_units(book: &mut VoiceBook) {
    for (code, value) in [(NUMBER, "1.5"), (NUMBER, "-1.5E-2"), (INTEGER, "7"), (EPOCH, "2026-320T20:01:30"), (1, "1.0")] {
        for (front, back) in [
            (" ", ""),
            ("", " "),
            (" ", " "),
            ("  ", ""),
            ("", " [KM]"),
            ("", "[KM]"),
            ("", " [S]"),
            ("=", ""),
            ("X=", ""),
            ("\t", ""),
            ("", "\n"),
            ("", "\r\n"),
            ("", "\0"),
        ] {
            book.falls("something about it", code, format!("{front}{value}{back}").as_bytes());
        }
    }
    for (code, unit) in [(10, "[KM]"), (13, "[KM/S]"), (18, "[DEG]"), (23, "[KM**3/S**2]"), (24, "[KG]"), (25, "[M**2]"), (30, "[S]")] {
        book.falls("its own unit", code, format!("1 {unit}").as_bytes());
        book.falls("a unit alone", code, unit.as_bytes());
    }
}

/// Rooms of every size about the one needed, and some whose size is small in fewer bits.
fn rooms(book: &mut VoiceBook) {
    for size in 0..=20 {
        let answer: (u32, &[u8]) = if size < 9 { (NO_ROOM, b"") } else { (FINE, b"minus 777") };
        book.add("every room", INTEGER, b"-777", size, answer);
        book.add("every room", COMMENT, b"", size, (FINE, b""));
        book.add("every room", NUMBER, b"-", size, (Reason::Value.number(), b""));
    }
    for size in [255, 256, 257, 260, 300, 511, 512, 65_535, 65_536, 65_537, 65_544, 1_000_000] {
        book.add("great room", INTEGER, b"-777", size, (FINE, b"minus 777"));
        book.add("great room", COMMENT, b"", size, (FINE, b""));
        book.add("great room", NUMBER, b"-", size, (Reason::Value.number(), b""));
    }
    let (value, words) = ([&b"-"[..], &[b'0'; 253]].concat(), [&b"minus "[..], &[b'0'; 253]].concat());
    for size in 250..=262 {
        let answer: (u32, &[u8]) = if size < 259 { (NO_ROOM, b"") } else { (FINE, &words) };
        book.add("about 259 bytes", INTEGER, &value, size, answer);
    }
}
