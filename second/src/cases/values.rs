//! Cases about values: numbers, integers, epochs, texts, units, and the order of times.

use super::{oem, opm, wide_oem, wide_opm, Book};
use crate::judge::Reason::*;

const GOOD_NUMBERS: [&str; 27] = [
    "0", "5", "-5", "+5", "00", "0.5", "-0.5", "+0.5", "007.500", "1234567890123456", "-1234567890123456", "0000000000000000",
    "0.123456789012345", "123456789012345.6", "1.5E3", "1.5e3", "1.5E+3", "1.5E-3", "-1.5E003", "+0.0e0", "1.123456789012345E+308",
    "9.999999999999999e999", "0.0", "-0", "1.0E00", "5.0", "1.5e-999",
];

const BAD_NUMBERS: [&str; 45] = [
    "", ".", ".5", "5.", "-.5", "+5.", "-", "+", "--5", "+-5", "5-", "12345678901234567", "00000000000000000", "0.1234567890123456",
    "1234567890123456.7", "1.2.3", "1..2", "1,5", "1'000", "5x", "x5", "0x5", "NaN", "inf", "1E3", "12.5E3", "0.E3", ".5E3", "1.E3",
    "1.5E", "1.5e+", "1.5E-", "1.5E1000", "1.5E0003", "1.5E3.0", "1.5EE3", "1.5E3E3", "1.5D3", "1.5E+-3", "1.1234567890123456E1", "5[KM]",
    "[KM]", "=5", "1.5E3-", "1.5-E3",
];

pub(super) fn numbers(book: &mut Book) {
    for text in GOOD_NUMBERS {
        book.stands(&format!("number {text:?} assigned"), opm().put(10, format!("X={text}")), 20);
        book.stands(&format!("number {text:?} in a data line"), oem().put(13, format!("2000-01-01T00:00:00 1 2 3 4 5 {text}")), 19);
    }
    for text in BAD_NUMBERS {
        book.falls(&format!("number {text:?} assigned"), opm().put(10, format!("X={text}")), Value, 10);
    }
    for text in BAD_NUMBERS.iter().filter(|text| !text.is_empty() && !text.contains('=')) {
        book.falls(&format!("number {text:?} in a data line"), oem().put(13, format!("2000-01-01T00:00:00 1 2 3 4 5 {text}")), Value, 13);
    }
    // Every code that wants a number, by its line in the wide OPM.
    for line in [10, 11, 12, 13, 14, 15, 16, 17, 18, 19, 20, 21, 22, 23, 24, 25, 26, 27, 29, 30, 32, 33, 34] {
        let word = word_of(line);
        book.falls(&format!("{word} of .5"), wide_opm().put(line, format!("{word}=.5")), Value, line);
        book.falls(&format!("{word} without a value"), wide_opm().put(line, format!("{word}=  ")), Value, line);
        book.stands(&format!("{word} of 1.5E3"), wide_opm().put(line, format!("{word}=1.5E3")), 41);
    }
    for field in 1..=6 {
        let mut fields = ["2000-01-01T00:00:00", "1", "2", "3", "4", "5", "6"];
        fields[field] = "5.";
        book.falls(&format!("5. as field {field} after the epoch"), oem().put(13, fields.join(" ")), Value, 13);
    }
    book.stands("a negative MAN_DELTA_MASS", wide_opm().put(30, "MAN_DELTA_MASS=-1"), 41);
    book.stands("a positive MAN_DELTA_MASS", wide_opm().put(30, "MAN_DELTA_MASS=+1"), 41);
}

/// The keyword of a line of the wide OPM.
fn word_of(line: usize) -> String {
    let text = String::from_utf8_lossy(&wide_opm().0[line - 1]).into_owned();
    text.split('=').next().unwrap_or_default().to_string()
}

pub(super) fn integers(book: &mut Book) {
    for text in [
        "0", "7", "+7", "-7", "007", "-0", "2147483647", "+2147483647", "-2147483648", "0000000000000002147483647",
        "-00000000002147483648", "  7  ",
    ] {
        book.stands(&format!("degree {text:?}"), wide_oem().put(15, format!("INTERPOLATION_DEGREE={text}")), 60);
    }
    for text in [
        "", "-", "+", "2147483648", "+2147483648", "-2147483649", "9999999999", "10000000000", "18446744073709551617", "7.0", "7.", "1e1",
        "7 7", "- 7", "7 [KM]", "0x7", "seven", "+-7", "7-",
    ] {
        book.falls(&format!("degree {text:?}"), wide_oem().put(15, format!("INTERPOLATION_DEGREE={text}")), Value, 15);
    }
}

const GOOD_EPOCHS: [&str; 27] = [
    "2000-01-01T00:00:00", "2000-001T00:00:00", "2000-02-29T00:00:00", "2000-366T00:00:00", "2004-02-29T00:00:00", "1600-02-29T00:00:00",
    "2001-365T00:00:00", "2001-02-28T00:00:00", "0001-01-01T00:00:00", "0001-001T00:00:00", "9999-12-31T23:59:59.999999999",
    "9999-365T23:59:59", "0004-02-29T00:00:00", "2000-12-31T23:59:59", "2000-01-31T00:00:00", "2000-04-30T00:00:00", "2000-06-30T00:00:00",
    "2000-09-30T00:00:00", "2000-11-30T00:00:00", "2000-01-01T00:00:00.0", "2000-01-01T00:00:00.000000000", "2000-001T00:00:00.123456789",
    "2000-08-31T09:09:09", "2000-10-31T19:09:09", "2000-099T00:00:00", "2000-100T23:00:00", "2000-01-01T23:59:60",
];

const BAD_EPOCHS: [&str; 60] = [
    "", "1900-02-29T00:00:00", "2100-02-29T00:00:00", "2001-02-29T00:00:00", "2000-02-30T00:00:00", "2001-366T00:00:00",
    "1900-366T00:00:00", "2000-367T00:00:00", "2000-000T00:00:00", "2000-999T00:00:00", "2000-01-01T24:00:00", "2000-001T24:00:00",
    "2000-01-01T00:60:00", "2000-01-01T23:58:60", "2000-01-01T00:00:99", "0000-01-01T00:00:00", "0000-001T00:00:00", "2000-00-01T00:00:00",
    "2000-13-01T00:00:00", "2000-01-00T00:00:00", "2000-01-32T00:00:00", "2000-04-31T00:00:00", "2000-06-31T00:00:00",
    "2000-09-31T00:00:00", "2000-11-31T00:00:00", "2000-01-01T00:00:00.", "2000-01-01T00:00:00.1234567890", "2000-01-01T00:00:00.1x",
    "2000-01-01T00:00:00,5", "2000-01-01T00:00:00Z", "2000-01-01T00:00:00.5Z", "2000-01-01T00:00:00 Z", "2000-01-01T00:00:00 [S]",
    "2000-01-01 00:00:00", "2000-01-01t00:00:00", "2000-01-01T", "2000-01-01", "T00:00:00", "2000-01-01T00:00", "2000-01-01T0:00:00",
    "2000-01-01T00:0:00", "2000-01-01T00:00:0", "2000-1-01T00:00:00", "2000-01-1T00:00:00", "2000-1T00:00:00", "2000-01T00:00:00",
    "2000-0001T00:00:00", "200-01-01T00:00:00", "02000-01-01T00:00:00", "-2000-01-01T00:00:00", "+2000-01-01T00:00:00",
    "2000/01/01T00:00:00", "2000-01-01T00-00-00", "2000-01-01T00:00:00:00", "2000-01-01TT00:00:00", "2000-01-01T00:00:+0", "2451534.29812",
    "2000-OCT-09T00:00:00", "20000101T000000", "2000-01-01T00:00:00.1.2",
];

pub(super) fn epochs(book: &mut Book) {
    for text in GOOD_EPOCHS {
        book.stands(&format!("epoch {text:?} assigned"), opm().put(9, format!("EPOCH = {text}")), 20);
    }
    for text in BAD_EPOCHS {
        book.falls(&format!("epoch {text:?} assigned"), opm().put(9, format!("EPOCH = {text}")), Value, 9);
    }
    for text in BAD_EPOCHS.iter().filter(|text| !text.is_empty() && !text.contains(' ')) {
        book.falls(&format!("epoch {text:?} in a data line"), oem().put(13, format!("{text} 1 2 3 4 5 6")), Value, 13);
    }
    // Every code that wants an epoch refuses an hour of 24.
    book.falls("CREATION_DATE of hour 24", opm().put(2, "CREATION_DATE=2000-01-01T24:00:00"), Value, 2);
    book.falls("CREATION_DATE of hour 24 in an OEM", oem().put(2, "CREATION_DATE=2000-01-01T24:00:00"), Value, 2);
    book.falls("MAN_EPOCH_IGNITION of hour 24", wide_opm().put(28, "MAN_EPOCH_IGNITION=2000-01-01T24:00:00"), Value, 28);
    for (line, word) in [(10, "START_TIME"), (11, "USEABLE_START_TIME"), (12, "USEABLE_STOP_TIME"), (13, "STOP_TIME")] {
        book.falls(&format!("{word} of hour 24"), wide_oem().put(line, format!("{word}=2000-01-01T24:00:00")), Value, line);
        book.falls(&format!("{word} without a value"), wide_oem().put(line, format!("{word}=")), Value, line);
    }
    book.falls("CREATION_DATE without a value", opm().put(2, "CREATION_DATE="), Value, 2);
}

pub(super) fn texts(book: &mut Book) {
    let words = [
        (3, "ORIGINATOR"),
        (4, "OBJECT_NAME"),
        (5, "OBJECT_ID"),
        (6, "CENTER_NAME"),
        (7, "REF_FRAME"),
        (8, "TIME_SYSTEM"),
        (31, "MAN_REF_FRAME"),
    ];
    for (line, word) in words {
        book.falls(&format!("{word} without a value"), wide_opm().put(line, format!("{word}=")), Value, line);
        book.falls(&format!("{word} of blanks"), wide_opm().put(line, format!("{word}=   ")), Value, line);
        book.stands(&format!("{word} of one byte"), wide_opm().put(line, format!("{word}=~")), 41);
    }
    book.falls("INTERPOLATION without a value", wide_oem().put(14, "INTERPOLATION="), Value, 14);
    book.stands("INTERPOLATION of any text", wide_oem().put(14, "INTERPOLATION = [KM] = 5"), 60);
    book.stands("a text with a sign", opm().put(4, "OBJECT_NAME=a=b"), 20);
    book.stands("a text of a sign alone", opm().put(4, "OBJECT_NAME=="), 20);
    book.stands("a text that looks like a unit", opm().put(4, "OBJECT_NAME=5 [DEG]"), 20);
    book.stands("a text that says COMMENT", opm().put(4, "OBJECT_NAME=COMMENT"), 20);
    book.stands("a text that says a heading", opm().put(4, "OBJECT_NAME=CCSDS_OPM_VERS=1.0"), 20);
    book.stands("a text in lower case", opm().put(8, "TIME_SYSTEM = no such system"), 20);
}

/// Every code with a number: its line in the wide OPM, its unit (none for three), and a unit that isn't its own.
const UNITS: [(usize, &str, &str); 23] = [
    (10, "[KM]", "[KM/S]"),
    (11, "[KM]", "[M]"),
    (12, "[KM]", "[DEG]"),
    (13, "[KM/S]", "[KM]"),
    (14, "[KM/S]", "[M/S]"),
    (15, "[KM/S]", "[KM/S**2]"),
    (16, "[KM]", "[KM**3/S**2]"),
    (17, "", "[KM]"),
    (18, "[DEG]", "[RAD]"),
    (19, "[DEG]", "[KM]"),
    (20, "[DEG]", "[S]"),
    (21, "[DEG]", "[deg]"),
    (22, "[KM**3/S**2]", "[KM**3/S**3]"),
    (23, "[KG]", "[G]"),
    (24, "[M**2]", "[M]"),
    (25, "", "[]"),
    (26, "[M**2]", "[KM**2]"),
    (27, "", "[M**2]"),
    (29, "[S]", "[KM/S]"),
    (30, "[KG]", "[S]"),
    (32, "[KM/S]", "[S]"),
    (33, "[KM/S]", "[KG]"),
    (34, "[KM/S]", "[KM]"),
];

/// Every unit that document 01 has, and the empty brackets.
const ALL_UNITS: [&str; 8] = ["[KM]", "[KM/S]", "[DEG]", "[KM**3/S**2]", "[KG]", "[M**2]", "[S]", "[]"];

pub(super) fn units(book: &mut Book) {
    for (line, unit, wrong) in UNITS {
        let word = word_of(line);
        let with = |rest: &str| wide_opm().put(line, format!("{word} = 5 {rest}"));
        if unit.is_empty() {
            book.falls(&format!("{word} has no unit"), with("[n/a]"), Unit, line);
        } else {
            book.stands(&format!("{word} in {unit}"), with(unit), 41);
            book.falls(&format!("{word} in {unit} without its blank"), wide_opm().put(line, format!("{word}=5{unit}")), Value, line);
            book.falls(&format!("{word} in {unit} in lower case"), with(&unit.to_lowercase()), Unit, line);
            book.falls(&format!("{word} in {unit} without brackets"), with(unit.trim_matches(['[', ']'])), Unit, line);
        }
        for other in ALL_UNITS.into_iter().filter(|other| *other != unit) {
            book.falls(&format!("{word} in {other}, a unit of others"), with(other), Unit, line);
        }
        book.falls(&format!("{word} in {wrong}"), with(wrong), Unit, line);
        book.falls(&format!("{word} followed by a number"), with("5"), Unit, line);
    }
    book.stands("MEAN_ANOMALY in [DEG]", wide_opm().put(21, "MEAN_ANOMALY=5 [DEG]"), 41);
    book.falls("MEAN_ANOMALY in [KM]", wide_opm().put(21, "MEAN_ANOMALY=5 [KM]"), Unit, 21);
    book.stands("blanks around a unit", opm().put(10, "X=5     [KM]   "), 20);
    for rest in ["[ KM ]", "[KM] x", "[KM][KM]", "[KM", "KM]", "=", "[KM]=", "[KM] [KM]", "[KM].", "x [KM]", "(KM)", "[KMS]"] {
        book.falls(&format!("X followed by {rest:?}"), opm().put(10, format!("X=5 {rest}")), Unit, 10);
    }
    book.falls("a unit after a field of a data line", oem().put(13, "2000-01-01T00:00:00 1 2 3 4 5 6 [KM/S]"), Form, 13);
    book.falls("a unit for a field of a data line", oem().put(13, "2000-01-01T00:00:00 1 [KM] 3 4 5 6"), Value, 13);
}

/// The times 38 to 41 of a segment never decrease.
pub(super) fn bounds(book: &mut Book) {
    let stops = |time: &str| oem().put(11, format!("STOP_TIME={time}"));
    for time in ["2000-01-01T00:00:00", "2000-001T00:00:00.000", "2000-01-01T00:00:00.000000001", "2000-002T00:00:00", "9999-365T00:00:00"]
    {
        book.stands(&format!("STOP_TIME {time} after START_TIME 2000-001T00:00:00"), stops(time), 19);
    }
    for time in ["1999-12-31T23:59:59.999999999", "1999-365T00:00:00", "0001-01-01T00:00:00"] {
        book.falls(&format!("STOP_TIME {time} before START_TIME 2000-001T00:00:00"), stops(time), TimeOrder, 11);
    }
    book.falls("39 before 38", wide_oem().put(11, "USEABLE_START_TIME=1999-365T23:59:59"), TimeOrder, 11);
    book.stands("39 equal to 38", wide_oem().put(11, "USEABLE_START_TIME=2000-001T00:00:00.0"), 60);
    book.falls("40 before 39", wide_oem().put(12, "USEABLE_STOP_TIME=2000-01-01T12:00:00"), TimeOrder, 12);
    book.stands("40 equal to 39", wide_oem().put(12, "USEABLE_STOP_TIME=2000-002T00:00:00"), 60);
    book.falls("41 before 40", wide_oem().put(13, "STOP_TIME=2000-01-02T12:00:00"), TimeOrder, 13);
    book.falls("41 before 40 in the other form", wide_oem().put(13, "STOP_TIME=2000-002T23:59:59.999"), TimeOrder, 13);
    book.falls("40 before 38, without 39", wide_oem().drop(11).put(11, "USEABLE_STOP_TIME=1999-01-01T00:00:00"), TimeOrder, 11);
    book.falls("41 before 39, without 40", wide_oem().drop(12).put(12, "STOP_TIME=2000-01-01T12:00:00"), TimeOrder, 12);
    book.falls("41 before 38, without 39 and 40", wide_oem().drop(11).drop(11).put(11, "STOP_TIME=1999-01-01T00:00:00"), TimeOrder, 11);
    book.stands(
        "a second segment may lie before the first",
        wide_oem()
            .put(26, "START_TIME=1990-001T00:00:00")
            .put(27, "STOP_TIME=1990-003T00:00:00")
            .put(29, "1990-01-01T00:00:00 1 2 3 4 5 6")
            .put(30, "1990-01-03T00:00:00 1 2 3 4 5 6"),
        60,
    );
    book.falls("41 before 38 in a second segment", wide_oem().put(27, "STOP_TIME=1999-001T00:00:00"), TimeOrder, 27);
    book.stands("CREATION_DATE is under no rule of time", oem().put(2, "CREATION_DATE=9999-365T00:00:00"), 19);
}

/// Data epochs: START_TIME and STOP_TIME, the first data line (13) and a second one (14).
const SPANS: [(&str, &str, &str, &str, bool); 25] = [
    ("2000-001T00:00:00", "2000-002T00:00:00", "2000-01-01T00:00:00", "2000-01-02T00:00:00", true),
    ("2000-01-01T00:00:00", "2000-01-02T00:00:00", "2000-001T00:00:00", "2000-002T00:00:00", true),
    ("2000-001T00:00:00", "2000-002T00:00:00", "2000-01-01T00:00:00", "2000-01-01T00:00:00", false),
    ("2000-001T00:00:00", "2000-002T00:00:00", "2000-01-01T00:00:00", "2000-001T00:00:00", false),
    ("2000-001T00:00:00", "2000-002T00:00:00", "2000-01-01T00:00:00", "2000-01-01T00:00:00.000", false),
    ("2000-001T00:00:00", "2000-002T00:00:00", "2000-01-01T00:00:00.5", "2000-001T00:00:00.500", false),
    ("2000-001T00:00:00", "2000-002T00:00:00", "2000-01-01T00:00:00.5", "2000-001T00:00:00.499999999", false),
    ("2000-001T00:00:00", "2000-002T00:00:00", "2000-01-01T00:00:00.5", "2000-001T00:00:00.500000001", true),
    ("2000-001T00:00:00", "2000-002T00:00:00", "2000-01-01T00:00:00.9", "2000-001T00:00:00.10", false),
    ("2000-001T00:00:00", "2000-002T00:00:00", "2000-01-01T00:00:00", "2000-01-01T00:00:00.000000001", true),
    ("2000-001T00:00:00", "2000-002T00:00:00", "2000-01-01T00:00:00", "2000-01-02T00:00:00.000000000", true),
    ("2000-001T00:00:00", "2000-002T00:00:00", "2000-01-01T00:00:00", "2000-01-02T00:00:00.000000001", false),
    ("2000-001T00:00:00", "2000-002T00:00:00", "2000-01-01T00:00:00", "2000-003T00:00:00", false),
    ("2000-059T00:00:00", "2000-062T00:00:00", "2000-02-29T00:00:00", "2000-061T00:00:00", true),
    ("2000-059T00:00:00", "2000-062T00:00:00", "2000-02-29T00:00:00", "2000-060T00:00:00", false),
    ("2000-059T00:00:00", "2000-062T00:00:00", "2000-03-01T00:00:00", "2000-061T00:00:00.1", true),
    ("2001-059T00:00:00", "2001-062T00:00:00", "2001-02-28T00:00:00", "2001-060T00:00:00", true),
    ("2001-059T00:00:00", "2001-062T00:00:00", "2001-03-01T00:00:00", "2001-060T00:00:00", false),
    ("1999-365T00:00:00", "2000-001T00:00:00", "1999-12-31T23:59:59.999999999", "2000-01-01T00:00:00", true),
    ("1999-001T00:00:00", "2000-366T00:00:00", "1999-12-31T00:00:00", "2000-001T00:00:00", true),
    ("1999-001T00:00:00", "2000-366T00:00:00", "2000-01-01T00:00:00", "1999-365T23:59:59", false),
    ("0001-001T00:00:00", "9999-365T23:59:59", "0001-01-01T00:00:00", "9999-12-31T23:59:59", true),
    ("2000-001T00:00:00", "2001-001T00:00:00", "2000-12-31T00:00:00", "2000-366T00:00:00", false),
    ("2000-001T00:00:00", "2001-001T00:00:00", "2000-336T23:59:59", "2000-12-01T00:00:00", false),
    ("2000-001T00:00:00", "2001-001T00:00:00", "2000-335T23:59:59", "2000-12-01T00:00:00", true),
];

pub(super) fn data_times(book: &mut Book) {
    for (start, stop, first, second, sound) in SPANS {
        let name = format!("data at {first} and {second}, from {start} to {stop}");
        let sheet = oem().put(10, format!("START_TIME={start}")).put(11, format!("STOP_TIME={stop}"));
        let sheet = sheet.put(13, format!("{first} 1 2 3 4 5 6")).add(format!("{second} 1 2 3 4 5 6"));
        if sound {
            book.stands(&name, sheet, 26);
        } else {
            book.falls(&name, sheet, TimeOrder, 14);
        }
    }
    let first = |time: &str| oem().put(13, format!("{time} 1 2 3 4 5 6"));
    book.falls("the first data epoch before START_TIME", first("1999-12-31T23:59:59.999999999"), TimeOrder, 13);
    book.falls("the first data epoch after STOP_TIME", first("2000-01-01T00:00:00.000000001"), TimeOrder, 13);
    book.stands("the first data epoch on both bounds", first("2000-001T00:00:00.000000000"), 19);
    book.falls("a data line twice", oem().twice(13), TimeOrder, 14);
    book.falls("a data line far back", wide_oem().put(19, "2000-01-01T12:00:00 1 2 3 4 5 6"), TimeOrder, 19);
    book.stands(
        "data before 39 and after 40",
        wide_oem().put(17, "2000-001T01:00:00 1 2 3 4 5 6").put(18, "2000-003T01:00:00 1 2 3 4 5 6"),
        60,
    );
    book.falls("a second segment's data in the first's span alone", wide_oem().put(26, "START_TIME=2000-01-02T00:00:00"), TimeOrder, 29);
    book.stands("a second segment's data may go back", wide_oem().put(29, "2000-01-01T00:00:00.5 1 2 3 4 5 6"), 60);
    book.falls("data goes back within a second segment", wide_oem().put(30, "2000-001T00:00:00 1 2 3 4 5 6"), TimeOrder, 30);
    book.falls("a blank line does not part data epochs", wide_oem().put(18, "2000-001T00:00:00 1 2 3 4 5 6").insert(18, ""), TimeOrder, 19);
}
