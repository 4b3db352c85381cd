//! Cases about lines: endings, long lines, bad bytes, blanks, comments, META lines, forms and keywords.

use super::{oem, opm, wide_oem, wide_opm, Book, Sheet};
use crate::judge::Reason::*;

/// Where a line ends: a line that offends shows how many lines were counted before it.
pub(super) fn endings(book: &mut Book) {
    let names: [(&str, &[u8]); 4] = [("LF", b"\n"), ("CR", b"\r"), ("CR LF", b"\r\n"), ("LF CR", b"\n\r")];
    for (name, ending) in names {
        book.stands(&format!("every line ended by {name}"), oem().ended(ending), 19);
        book.falls(&format!("{name} counts one line each"), oem().add("x").ended(ending), Form, 14);
        book.falls(&format!("SHORT after lines ended by {name}"), oem().drop(13).ended(ending), Short, 13);
        book.falls(&format!("blank lines ended by {name} are lines"), blank_between().ended(ending), Form, 14);
    }
    book.stands("endings in turn, LF CR first", oem().ended_in_turn(&[b"\n", b"\r", b"\r\n", b"\n\r"]), 19);
    book.falls("endings in turn count one line each", oem().add("x").ended_in_turn(&[b"\r\n", b"\n", b"\n\r", b"\r"]), Form, 14);
    book.shows(
        "rows after CR LF stand one byte further each line",
        oem().ended(b"\r\n"),
        19,
        &[(1, [2, 0, 2, 34, 19]), (18, [15, 1, 13, 254, 1])],
    );
    for (name, run, lines) in RUNS {
        let feed = [b"CCSDS_OPM_VERS=1.0", run, b"x"].concat();
        book.falls(&format!("{name} between the heading and a wrong line"), feed, Form, lines + 1);
        let feed = [b"CCSDS_OPM_VERS=1.0", run].concat();
        book.falls(&format!("{name} at the end of a short message"), feed, Short, lines + 1);
    }
    book.stands("last line without an ending", oem().ended(b"\n")[..243].to_vec(), 19);
    book.falls("SHORT, last line without an ending", oem().drop(13).ended(b"\n")[..211].to_vec(), Short, 13);
    book.falls("SHORT counts a blank line at the end", oem().drop(13).add(""), Short, 14);
    book.falls("SHORT counts blanks without an ending", [oem().drop(13).ended(b"\n"), b"  ".to_vec()].concat(), Short, 14);
    book.falls("SHORT counts a comment at the end", oem().drop(13).add("COMMENT"), Short, 14);
    book.falls("a CR within a line parts it", opm().put(4, "OBJECT_NAME=\rB"), Value, 4);
    book.falls("an LF before the sign parts the line", opm().put(4, "OBJECT_NAME\n=B"), Form, 4);
}

/// Runs of CR and LF, and how many lines they end.
const RUNS: [(&str, &[u8], usize); 14] = [
    ("LF LF", b"\n\n", 2),
    ("CR CR", b"\r\r", 2),
    ("CR LF LF", b"\r\n\n", 2),
    ("LF CR CR", b"\n\r\r", 2),
    ("LF CR LF", b"\n\r\n", 2),
    ("CR LF CR", b"\r\n\r", 2),
    ("LF LF CR", b"\n\n\r", 2),
    ("CR CR LF", b"\r\r\n", 2),
    ("CR LF CR LF", b"\r\n\r\n", 2),
    ("LF CR CR LF", b"\n\r\r\n", 2),
    ("CR LF LF CR", b"\r\n\n\r", 2),
    ("LF LF LF", b"\n\n\n", 3),
    ("CR CR LF LF", b"\r\r\n\n", 3),
    ("LF blank CR", b"\n \r", 2),
];

/// Lines 3 and 5 blank, and line 14 wrong.
fn blank_between() -> Sheet {
    oem().insert(3, "").insert(5, "").keep(13).add("x")
}

fn padded(text: &str, size: usize) -> String {
    format!("{text:size$}")
}

pub(super) fn long_lines(book: &mut Book) {
    for size in [253, 254] {
        book.stands(&format!("comment of {size} bytes"), opm().add(format!("COMMENT {}", "x".repeat(size - 8))), 21);
        book.stands(&format!("assignment of {size} bytes"), opm().put(10, padded("X=1", size)), 20);
        book.stands(&format!("text of a line of {size} bytes"), opm().put(4, format!("OBJECT_NAME={}", "B".repeat(size - 12))), 20);
        book.stands(&format!("blank line of {size} bytes"), opm().insert(5, padded("", size)), 20);
        book.stands(&format!("META_START of {size} bytes"), oem().put(4, padded("META_START", size)), 19);
        book.stands(&format!("data line of {size} bytes"), oem().put(13, padded("2000-01-01T00:00:00 1 2 3 4 5 6", size)), 19);
        book.stands(&format!("comment of {size} bytes ended by CR LF"), opm().add(padded("COMMENT", size)).ended(b"\r\n"), 21);
    }
    for size in [255, 256] {
        book.falls(&format!("comment of {size} bytes"), opm().add(format!("COMMENT {}", "x".repeat(size - 8))), Long, 21);
        book.falls(&format!("assignment of {size} bytes"), opm().put(10, padded("X=1", size)), Long, 10);
        book.falls(&format!("blank line of {size} bytes"), opm().insert(5, padded("", size)), Long, 5);
        book.falls(&format!("META_START of {size} bytes"), oem().put(4, padded("META_START", size)), Long, 4);
        book.falls(&format!("data line of {size} bytes"), oem().put(13, padded("2000-01-01T00:00:00 1 2 3 4 5 6", size)), Long, 13);
        book.falls(&format!("comment of {size} bytes ended by CR LF"), opm().add(padded("COMMENT", size)).ended(b"\r\n"), Long, 21);
    }
    book.falls("LONG before BYTE", opm().put(10, padded("X=1\t", 255)), Long, 10);
    book.falls("LONG before FORM", opm().put(10, padded("x", 255)), Long, 10);
    book.falls("BYTE at 254 bytes", opm().put(10, padded("X=1\t", 254)), Byte, 10);
    book.falls("a long last line without an ending", [opm().ended(b"\n"), vec![b' '; 255]].concat(), Long, 21);
}

pub(super) fn bad_bytes(book: &mut Book) {
    for byte in [0, 1, 9, 11, 12, 27, 31, 127, 128, 160, 254, 255] {
        let text = [b"COMMENT ", &[byte][..]].concat();
        book.falls(&format!("byte {byte} in a comment"), opm().insert(2, text), Byte, 2);
    }
    for byte in [32, 33, 64, 126] {
        let text = [b"COMMENT x", &[byte][..], b"x"].concat();
        book.stands(&format!("byte {byte} in a comment"), opm().insert(2, text), 21);
    }
    book.falls("a line of one tab", opm().insert(3, "\t"), Byte, 3);
    book.falls("a tab for a blank in an assignment", opm().put(10, "X\t=\t1"), Byte, 10);
    book.falls("a tab for a blank in a data line", oem().put(13, "2000-01-01T00:00:00\t1 2 3 4 5 6"), Byte, 13);
    book.falls("a tab after META_START", oem().put(4, "META_START\t"), Byte, 4);
    book.falls("BYTE before KEYWORD", opm().put(10, b"W=\x80"), Byte, 10);
    book.falls("BYTE before ORDER", opm().put(10, b"Y=2\x00"), Byte, 10);
    book.falls("BYTE in the last line, without an ending", [opm().ended(b"\n"), vec![127]].concat(), Byte, 21);
}

/// Blanks are allowed wherever they don't part a word.
pub(super) fn blanks(book: &mut Book) {
    book.stands("blanks before and after every line", Sheet(oem().0.iter().map(|line| [b"   ", &line[..], b"  "].concat()).collect()), 19);
    let spread = |line: &Vec<u8>| String::from_utf8_lossy(line).replace('=', "   =   ").into_bytes();
    book.stands("blanks around every sign", Sheet(wide_opm().0.iter().map(spread).collect()), 41);
    book.stands("a blank line after every line", Sheet(wide_oem().0.into_iter().flat_map(|line| [line, Vec::new()]).collect()), 60);
    book.stands("lines of blanks between data lines", wide_oem().insert(18, "  ").insert(19, ""), 60);
    book.stands("runs of blanks between fields", oem().put(13, "  2000-01-01T00:00:00   1  2    3 4  5      6  "), 19);
    let spaced = opm().put(4, "  OBJECT_NAME  =  a  b  ");
    book.shows("a text keeps its inner blanks", spaced, 20, &[(3, [4, 0, 4, 84, 4])]);
    let spaced = opm().put(10, "  X =  -1.5   [KM]  ");
    book.shows("a number's row leaves the unit out", spaced, 20, &[(9, [10, 0, 10, 167, 4])]);
    book.shows("a mark's row is empty, just past its word", oem().put(4, "  META_START   "), 19, &[(3, [37, 1, 4, 78, 0])]);
    let wide = oem().put(13, " 2000-01-01T00:00:00  10 2 3 4 5 6");
    book.shows(
        "a data line's rows at their own places",
        wide,
        19,
        &[(12, [9, 1, 13, 213, 19]), (13, [10, 1, 13, 234, 2]), (14, [11, 1, 13, 237, 1])],
    );
}

pub(super) fn comments(book: &mut Book) {
    for line in 2..=21 {
        book.stands(&format!("comment as line {line} of an OPM"), opm().insert(line, "COMMENT x"), 21);
    }
    for line in 2..=14 {
        book.stands(&format!("comment as line {line} of an OEM"), oem().insert(line, "COMMENT x"), 20);
    }
    book.shows("a comment with a sign (figure 3-1)", opm().add("COMMENT $ITIM  = 1998 OCT"), 21, &[(20, [45, 0, 21, 273, 17])]);
    book.shows("an empty comment", oem().add("COMMENT"), 20, &[(19, [45, 1, 14, 251, 0])]);
    book.shows("a comment of blanks", oem().add("  COMMENT     "), 20, &[(19, [45, 1, 14, 253, 0])]);
    book.shows("a comment's value is trimmed", oem().add("  COMMENT   a b  "), 20, &[(19, [45, 1, 14, 256, 3])]);
    book.stands("a comment of seven fields is no data", oem().insert(13, "COMMENT 1 2 3 4 5 6"), 20);
    book.stands("a comment that says META_START", oem().insert(13, "COMMENT META_START"), 20);
    book.stands("a comment that says COMMENT", oem().insert(2, "COMMENT COMMENT = COMMENT"), 20);
    book.falls("COMMENT=x is an assignment", opm().insert(2, "COMMENT=x"), Keyword, 2);
    book.stands("COMMENT =x is a comment", opm().insert(2, "COMMENT =x"), 21);
    book.falls("COMMENTS is no comment", opm().insert(2, "COMMENTS x"), Form, 2);
    book.falls("COMMENT: is no comment", opm().insert(2, "COMMENT: x"), Form, 2);
    book.falls("comment in lower case", opm().insert(2, "comment x"), Form, 2);
    book.falls("seven fields after a lower-case comment", oem().insert(2, "comment a b c d e f"), Order, 2);
    parted_data(book);
}

/// Comments between data lines, and where they do no harm.
fn parted_data(book: &mut Book) {
    book.falls("a comment between data lines", wide_oem().insert(18, "COMMENT x"), Order, 19);
    book.falls("an empty comment between data lines", wide_oem().insert(19, "COMMENT"), Order, 20);
    book.falls("two comments between data lines", wide_oem().insert(18, "COMMENT x").insert(18, "COMMENT y"), Order, 20);
    book.falls("a comment and blank lines between data lines", wide_oem().insert(18, "").insert(18, "COMMENT").insert(18, ""), Order, 21);
    book.falls("a comment between data lines of a second segment", wide_oem().insert(30, "COMMENT x"), Order, 31);
    book.falls("ORDER of a parted data line before its VALUE", wide_oem().put(18, "x 1 2 3 4 5 6").insert(18, "COMMENT"), Order, 19);
    book.stands("comments before the first data line", wide_oem().insert(17, "COMMENT x").insert(17, "COMMENT y"), 62);
    book.stands("a comment between two segments", wide_oem().insert(20, "COMMENT x"), 61);
    book.stands("a comment after the last data line", wide_oem().add("COMMENT x"), 61);
    book.falls("a wrong line after a comment after data", wide_oem().insert(18, "COMMENT x").insert(19, "x"), Form, 19);
    book.falls("a comment, then a data line with a wrong time", oem().add("COMMENT").add("1999-01-01T00:00:00 1 2 3 4 5 6"), Order, 15);
}

pub(super) fn marks(book: &mut Book) {
    book.stands("blanks around META_STOP", oem().put(12, "   META_STOP "), 19);
    book.falls("META_START with a word after it", oem().put(4, "META_START x"), Form, 4);
    book.falls("META_START with a sign", oem().put(4, "META_START="), Keyword, 4);
    book.falls("META_START with a value", oem().put(4, "META_START = 1"), Keyword, 4);
    book.falls("META_STOP with a value", oem().put(12, "META_STOP = 1"), Keyword, 12);
    book.falls("META_START in lower case", oem().put(4, "meta_start"), Form, 4);
    book.falls("META START in two words", oem().put(4, "META START"), Form, 4);
    book.falls("META_START in an OPM", opm().insert(4, "META_START"), Form, 4);
    book.falls("META_STOP in an OPM", opm().insert(9, " META_STOP "), Form, 9);
    book.falls("META_START with a sign in an OPM", opm().insert(4, "META_START ="), Keyword, 4);
    book.falls("META_START too early", oem().insert(3, "META_START"), Order, 3);
    book.falls("META_START twice", oem().twice(4), Order, 5);
    book.falls("META_START for META_STOP", oem().put(12, "META_START"), Order, 12);
    book.falls("META_STOP for META_START", oem().put(4, "META_STOP"), Order, 4);
    book.falls("META_STOP before STOP_TIME", oem().insert(11, "META_STOP"), Order, 11);
    book.falls("META_STOP after data", oem().add("META_STOP"), Order, 14);
    book.falls("META_START with no data before it", oem().insert(13, "META_START"), Order, 13);
    book.falls("META_START after data, and no more", oem().add("META_START"), Short, 15);
    book.falls("META_START as the first of seven fields", oem().put(4, "META_START 2 3 4 5 6 7"), Order, 4);
}

pub(super) fn forms(book: &mut Book) {
    book.falls("a word alone in an OPM", opm().insert(5, "OBJECT_NAME"), Form, 5);
    book.falls("a word alone in an OEM", oem().insert(5, "OBJECT_NAME"), Form, 5);
    book.falls("a data line in an OPM", opm().insert(9, "2000-01-01T00:00:00 1 2 3 4 5 6"), Form, 9);
    book.falls("a wrong line after a whole OPM", opm().add("."), Form, 21);
    book.falls("six fields in an OEM's header", oem().insert(3, "1 2 3 4 5 6"), Form, 3);
    book.falls("seven fields in an OEM's header", oem().insert(3, "1 2 3 4 5 6 7"), Order, 3);
    book.falls("eight fields in an OEM's header", oem().insert(3, "1 2 3 4 5 6 7 8"), Form, 3);
    book.falls("six fields for data", oem().put(13, "2000-01-01T00:00:00 1 2 3 4 5"), Form, 13);
    book.falls("eight fields for data", oem().put(13, "2000-01-01T00:00:00 1 2 3 4 5 6 7"), Form, 13);
    book.falls("seven fields within the metadata", oem().insert(8, "2000-01-01T00:00:00 1 2 3 4 5 6"), Order, 8);
    book.falls("a data line with a sign in it", oem().put(13, "2000-01-01T00:00:00 1 2 3 4 5 =6"), Keyword, 13);
    book.falls("a data line that ends in a sign", oem().put(13, "2000-01-01T00:00:00 1 2 3 4 5 6 ="), Keyword, 13);
    book.falls("FORM before a later LONG", opm().put(5, "x").put(6, padded("y", 300)), Form, 5);
}

pub(super) fn keywords(book: &mut Book) {
    for text in [
        "W=1", "x=1", "X_=1", "X Y=1", "=1", "   =1", "=", "X.=1", "EPOCHS=1", "USER_DEFINED=1", "COV_REF_FRAME=1", "START_TIME=1",
        "STOP_TIME=1", "INTERPOLATION=1",
    ] {
        book.falls(&format!("{text:?} in an OPM"), opm().put(10, text), Keyword, 10);
    }
    for text in [
        "EPOCH=2000-01-01T00:00:00", "X=1", "Z_DOT=1", "MASS=1", "MAN_DURATION=1", "GM=1", "META_STOP=", "COMMENT=", "USEABLE_STOPTIME=1",
        "INTERPOLATION_DEGREES=5", "==",
    ] {
        book.falls(&format!("{text:?} in an OEM"), oem().insert(10, text), Keyword, 10);
    }
    book.falls("KEYWORD before VALUE", opm().put(10, "x=.5 [km]"), Keyword, 10);
    book.falls("KEYWORD in a whole OPM's last line", opm().add("x="), Keyword, 21);
    book.falls("a keyword in lower case", opm().put(9, "epoch=2000-01-01T00:00:00"), Keyword, 9);
    book.falls("a second sign does not help", opm().put(10, "W=X=1"), Keyword, 10);
    book.falls("a period before the keyword", opm().put(10, ".X=1"), Keyword, 10);
}

/// Each keyword with one letter wrong, one short and one more.
pub(super) fn misspelt(book: &mut Book) {
    const WORDS: &str = "CCSDS_OPM_VERS CREATION_DATE ORIGINATOR OBJECT_NAME OBJECT_ID CENTER_NAME REF_FRAME TIME_SYSTEM EPOCH X Y Z X_DOT Y_DOT Z_DOT \
        SEMI_MAJOR_AXIS ECCENTRICITY INCLINATION RA_OF_ASC_NODE ARG_OF_PERICENTER TRUE_ANOMALY MEAN_ANOMALY GM MASS SOLAR_RAD_AREA SOLAR_RAD_COEFF \
        DRAG_AREA DRAG_COEFF MAN_EPOCH_IGNITION MAN_DURATION MAN_DELTA_MASS MAN_REF_FRAME MAN_DV_1 MAN_DV_2 MAN_DV_3 CCSDS_OEM_VERS META_START \
        START_TIME USEABLE_START_TIME USEABLE_STOP_TIME STOP_TIME INTERPOLATION INTERPOLATION_DEGREE META_STOP COMMENT";
    for word in WORDS.split(' ') {
        let spoilt = |at: usize, mark: char| format!("{}{mark}{}", &word[..at], &word[at + 1..]);
        let last = word.len() - 1;
        for text in [spoilt(0, '7'), spoilt(last / 2, '8'), spoilt(last, '9'), word[..last].to_string(), format!("{word}9")] {
            book.falls(&format!("{text:?} for {word} in an OPM"), opm().put(10, format!("{text}=1")), Keyword, 10);
            book.falls(&format!("{text:?} for {word} in an OEM"), oem().insert(10, format!("{text}=1")), Keyword, 10);
        }
    }
}
