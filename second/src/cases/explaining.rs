//! Cases about why a message is refused: the reason, the line, the offending bytes and the codes that could have stood there.

use super::{oem, opm, wide_oem, wide_opm, Sheet};
use crate::bytes::Bytes;
use crate::judge::Reason::{self, *};
use crate::judge::{Explained, FEED_LIMIT};

/// One message of a feed, and what must be said of it.
#[derive(Clone, Debug)]
pub struct ExplainCase {
    pub name: String,
    pub feed: Bytes,
    pub message: u64,
    pub want: Explained,
}

/// All fixed cases about explaining.
pub fn explainings() -> Vec<ExplainCase> {
    let mut book = ExplainBook { cases: Vec::new() };
    full_feed(&mut book);
    no_line(&mut book);
    long_lines(&mut book);
    bad_bytes(&mut book);
    forms(&mut book);
    keywords(&mut book);
    empty_values(&mut book);
    values(&mut book);
    data_fields(&mut book);
    units(&mut book);
    times(&mut book);
    states_of_an_opm(&mut book);
    states_of_an_oem(&mut book);
    comments_and_data(&mut book);
    order_lines(&mut book);
    ends(&mut book);
    endings(&mut book);
    messages(&mut book);
    first_reasons(&mut book);
    great_feeds(&mut book);
    book.cases
}

/// The cases as they are gathered.
struct ExplainBook {
    cases: Vec<ExplainCase>,
}

/// A blamed line, where in it the offending bytes are, and how many they are.
type Blame = (usize, usize, usize);

fn blamed(reason: Reason, line: usize, start: usize, length: usize, codes: &[u32]) -> Explained {
    Explained { line: line as u32, start: start as u32, length: length as u32, ..Explained::refused(reason) }.with_codes(codes)
}

impl ExplainBook {
    fn add(&mut self, name: &str, feed: impl Into<Bytes>, message: u64, want: Explained) {
        self.cases.push(ExplainCase { name: format!("explained: {name}"), feed: feed.into(), message, want });
    }

    /// A message alone in its feed, with an LF after each line, blamed for a part of one of its lines.
    fn falls(&mut self, name: &str, sheet: Sheet, reason: Reason, place: Blame) {
        self.misplaced(name, sheet, reason, place, &[]);
    }

    /// The same with the codes that could have stood there.
    fn misplaced(&mut self, name: &str, sheet: Sheet, reason: Reason, (line, offset, length): Blame, codes: &[u32]) {
        let before = sheet.clone().keep(line - 1).ended(b"\n").len();
        self.add(name, sheet, 1, blamed(reason, line, before + offset, length, codes));
    }

    /// A message alone in its feed that ends too early.
    fn ends(&mut self, name: &str, sheet: Sheet, codes: &[u32]) {
        let want = blamed(Short, sheet.0.len() + 1, sheet.ended(b"\n").len(), 0, codes);
        self.add(name, sheet, 1, want);
    }

    fn stands(&mut self, name: &str, feed: impl Into<Bytes>, rows: usize) {
        self.add(name, feed, 1, Explained::accepted(rows));
    }
}

/// Document 01's feed and its variants, every number counted in the feed.
fn full_feed(book: &mut ExplainBook) {
    book.stands("the feed in full", oem(), 19);
    book.add("the feed without line 13", oem().drop(13), 1, blamed(Short, 13, 212, 0, &[9]));
    book.add("the feed with line 12 twice", oem().twice(12), 1, blamed(Order, 13, 212, 9, &[9]));
    book.add("the feed without line 12", oem().drop(12), 1, blamed(Order, 12, 202, 31, &[42, 44]));
    book.add("the feed with another line 13", oem().put(13, "x"), 1, blamed(Form, 13, 212, 1, &[]));
    book.add("the feed with line 13 twice", oem().twice(13), 1, blamed(TimeOrder, 14, 244, 19, &[]));
    book.add("the feed with a wrong fourth field", oem().put(13, "2000-01-01T00:00:00 1 2 .3 4 5 6"), 1, blamed(Value, 13, 236, 2, &[]));
    book.add("the feed with no value in line 3", oem().put(3, "ORIGINATOR="), 1, blamed(Value, 3, 64, 0, &[]));
    book.add("the feed with no keyword in line 3", oem().put(3, "=A"), 1, blamed(Keyword, 3, 53, 0, &[]));
    book.add("the feed with a tab in line 2", oem().put(2, "CREATION_DATE=\t"), 1, blamed(Byte, 2, 33, 1, &[]));
    book.add("the feed with a long line 4", oem().put(4, " ".repeat(300)), 1, blamed(Long, 4, 320, 46, &[]));
    book.add("an OPM with a wrong unit", opm().put(10, "X=1 [M]"), 1, blamed(Unit, 10, 164, 3, &[]));
}

/// 1, 2 and acceptance are answered as such.
fn no_line(book: &mut ExplainBook) {
    let none = Explained::refused(NoMessage);
    book.add("the empty feed", Vec::new(), 1, none);
    book.add("message 0 of the empty feed", Vec::new(), 0, none);
    for message in [0, 2, 3, 1 << 32, (1 << 32) + 1, u64::MAX] {
        book.add(&format!("message {message} of a feed of one"), oem(), message, none);
    }
    book.add("message 2 of a feed whose first is wrong", oem().put(3, "x"), 2, none);
    book.add("message 1 of a feed without a heading", b"x\ny=\n".to_vec(), 1, none);
    let long = Bytes::padded(oem().ended(b"\n"), FEED_LIMIT + 1, b'\n');
    for message in [0, 1, 2] {
        book.add(&format!("message {message} of a feed that is too long"), long.clone(), message, Explained::refused(FeedLong));
    }
    book.stands("an OPM with everything", wide_opm(), 41);
    book.stands("an OPM with nothing optional and no ending", opm().joined(), 20);
    book.stands("an OEM of two segments", wide_oem(), 60);
    book.stands("comments have rows", oem().add("COMMENT").add("COMMENT x"), 21);
}

fn padded(text: &str, size: usize) -> String {
    format!("{text:size$}")
}

/// LONG: what stands past the 254th byte, whatever it is.
fn long_lines(book: &mut ExplainBook) {
    for size in [255, 256, 300, 1000, 5000] {
        let past = size - 254;
        book.falls(&format!("a comment of {size} bytes"), opm().insert(2, padded("COMMENT x", size)), Long, (2, 254, past));
        book.falls(&format!("a blank line of {size} bytes"), opm().insert(2, padded("", size)), Long, (2, 254, past));
        book.falls(&format!("an assignment of {size} bytes"), opm().put(10, padded("X=1", size)), Long, (10, 254, past));
        book.falls(&format!("a heading of {size} bytes"), opm().put(1, padded("CCSDS_OPM_VERS=1.0", size)), Long, (1, 254, past));
        book.falls(&format!("blanks before, {size} bytes"), opm().put(10, format!("{:>size$}", "X=1")), Long, (10, 254, past));
        let data = padded("2000-01-01T00:00:00 1 2 3 4 5 6", size);
        book.falls(&format!("a data line of {size} bytes"), oem().put(13, data), Long, (13, 254, past));
        book.falls(&format!("{size} bytes that are BYTE too"), oem().put(4, vec![0; size]), Long, (4, 254, past));
        let open = opm().add("y".repeat(size));
        book.add(&format!("{size} bytes at the feed's end"), open.joined(), 1, blamed(Long, 21, opm().ended(b"\n").len() + 254, past, &[]));
    }
    let far_heading = format!("{:>400}=1.0", "CCSDS_OPM_VERS");
    book.falls("a heading's sign past 254 bytes", opm().put(1, far_heading), Long, (1, 254, 150));
    book.stands("a comment of 254 bytes", opm().add(padded("COMMENT", 254)), 21);
}

/// BYTE: the first such byte of the line, however many there are.
fn bad_bytes(book: &mut ExplainBook) {
    for byte in [0, 9, 31, 127, 128, 255] {
        let with = |before: &str, after: &str| [before.as_bytes(), &[byte], after.as_bytes()].concat();
        book.falls(&format!("byte {byte} alone"), opm().insert(2, with("", "")), Byte, (2, 0, 1));
        book.falls(&format!("byte {byte} in a comment"), opm().insert(2, with("COMMENT x", "y")), Byte, (2, 9, 1));
        book.falls(&format!("byte {byte} at the front"), opm().put(10, with("", "X=1")), Byte, (10, 0, 1));
        book.falls(&format!("byte {byte} at the end"), opm().put(10, with("X=1", "")), Byte, (10, 3, 1));
        book.falls(&format!("byte {byte} in a heading"), opm().put(1, with("CCSDS_OPM_VERS =", "1.0")), Byte, (1, 16, 1));
        book.falls(&format!("byte {byte} after blanks"), opm().put(10, with("     ", "  ")), Byte, (10, 5, 1));
        book.falls(
            &format!("byte {byte} and more of them"),
            opm().put(10, [&with("X=", "")[..], &[byte, 7, 200]].concat()),
            Byte,
            (10, 2, 1),
        );
        book.falls(&format!("byte {byte} as the 254th"), opm().insert(2, with(&"x".repeat(253), "")), Byte, (2, 253, 1));
        book.falls(&format!("byte {byte} in a data line"), oem().put(13, with("2000-01-01T00:00:00", "1 2 3 4 5 6")), Byte, (13, 19, 1));
    }
    book.falls("two bad bytes, the greater first", opm().put(10, b"X\xff\x00=1"), Byte, (10, 1, 1));
}

/// FORM: the trimmed line.
fn forms(book: &mut ExplainBook) {
    for (text, offset, length) in [
        ("x", 0, 1),
        ("  x", 2, 1),
        ("x   ", 0, 1),
        ("   x  y ", 3, 4),
        ("OBJECT_NAME", 0, 11),
        ("COMMENTS x", 0, 10),
        ("  comment x ", 2, 9),
        ("META_START x", 0, 12),
        ("1 2 3 4 5 6", 0, 11),
        (" 1 2 3 4 5 6 7 8  ", 1, 15),
        ("~", 0, 1),
    ] {
        book.falls(&format!("{text:?} in an OPM"), opm().insert(5, text), Form, (5, offset, length));
        book.falls(&format!("{text:?} in an OEM"), oem().insert(5, text), Form, (5, offset, length));
        book.falls(&format!("{text:?} after all of an OPM"), opm().add(text), Form, (21, offset, length));
        book.falls(&format!("{text:?} after all of an OEM"), oem().add(text), Form, (14, offset, length));
    }
    for (text, offset, length) in [("META_START", 0, 10), ("  META_STOP ", 2, 9), (" 2000-01-01T00:00:00 1 2 3 4 5 6", 1, 31)] {
        book.falls(&format!("{text:?} in an OPM"), opm().insert(9, text), Form, (9, offset, length));
    }
    book.falls("a line of 254 bytes without a blank", opm().insert(9, "z".repeat(254)), Form, (9, 0, 254));
    book.falls("a form is wrong between data lines", wide_oem().insert(18, " z "), Form, (18, 1, 1));
}

/// KEYWORD: the trimmed keyword; an empty one lies at the sign.
fn keywords(book: &mut ExplainBook) {
    for (text, offset, length) in [
        ("W=1", 0, 1),
        ("  W  =1", 2, 1),
        ("W =", 0, 1),
        ("=1", 0, 0),
        ("   =1", 3, 0),
        (" = ", 1, 0),
        ("=", 0, 0),
        ("==", 0, 0),
        ("  ==x", 2, 0),
        ("  =  X = 1", 2, 0),
        ("X Y=1", 0, 3),
        (" X   Y  = 1 = 2", 1, 5),
        ("x=1", 0, 1),
        ("META_START = 1", 0, 10),
        (" META_STOP=", 1, 9),
        ("COMMENT=x", 0, 7),
        (" COMMENT= x", 1, 7),
        ("CCSDS_OMM_VERS = 1.0", 0, 14),
        ("X.=1 [KM]", 0, 2),
        ("COMMENTS = x", 0, 8),
        ("CREATION_DATES=2000-001T00:00:00", 0, 14),
    ] {
        book.falls(&format!("{text:?} for X"), opm().put(10, text), Keyword, (10, offset, length));
        book.falls(&format!("{text:?} in an OEM"), oem().insert(5, text), Keyword, (5, offset, length));
        book.falls(&format!("{text:?} after all of an OPM"), opm().add(text), Keyword, (21, offset, length));
    }
    book.falls("an OEM's keyword in an OPM", opm().insert(9, "  START_TIME=x"), Keyword, (9, 2, 10));
    book.falls("an OPM's keyword in an OEM", oem().insert(9, "EPOCH = x"), Keyword, (9, 0, 5));
    book.falls("a data line with a sign", oem().put(13, " 2000-01-01T00:00:00 1 2 3 4 5 =6"), Keyword, (13, 1, 29));
    book.falls("a data line that ends in a sign", oem().put(13, "2000-01-01T00:00:00 1 2 3 4 5 6  ="), Keyword, (13, 0, 31));
    book.falls("a sign after 253 bytes", opm().put(10, format!("{}=", "X".repeat(253))), Keyword, (10, 0, 253));
    book.falls("a sign after 253 blanks", opm().put(10, format!("{:>254}", "=")), Keyword, (10, 253, 0));
}

/// An empty value of every keyword lies just past the sign, whatever blanks come after it.
fn empty_values(book: &mut ExplainBook) {
    for (kind, sheet) in
        [("an OPM", wide_opm()), ("an OEM", wide_oem()), ("an OPM with MEAN_ANOMALY", wide_opm().put(21, "MEAN_ANOMALY=6"))]
    {
        for (line, text) in (1..).zip(sheet.0.clone()) {
            let text = String::from_utf8_lossy(&text).into_owned();
            let Some((word, _)) = text.split_once('=') else { continue };
            let name = format!("{word} of {kind} at line {line} without a value");
            let size = word.len();
            book.falls(&name, sheet.clone().put(line, format!("{word}=")), Value, (line, size + 1, 0));
            book.falls(&format!("{name}, blanks"), sheet.clone().put(line, format!("  {word} =   ")), Value, (line, size + 4, 0));
        }
    }
    let open = wide_opm().put(41, "MAN_DV_3=").joined();
    let want = blamed(Value, 41, open.len(), 0, &[]);
    book.add("an empty value at the feed's end", open, 1, want);
    let open = wide_opm().put(41, "MAN_DV_3=  ").joined();
    let want = blamed(Value, 41, open.len() - 2, 0, &[]);
    book.add("an empty value and blanks at the feed's end", open, 1, want);
}

/// VALUE: a text, an integer and an epoch are the whole field, a number runs to the first blank.
fn values(book: &mut ExplainBook) {
    for (text, offset, length) in [
        ("CCSDS_OPM_VERS=2.0", 15, 3),
        ("  CCSDS_OPM_VERS =  1.00  ", 20, 4),
        ("CCSDS_OPM_VERS=1.0 [KM]", 15, 8),
        ("CCSDS_OPM_VERS==1.0", 15, 4),
        ("CCSDS_OPM_VERS = 1 . 0", 17, 5),
    ] {
        book.falls(&format!("{text:?}"), opm().put(1, text), Value, (1, offset, length));
    }
    for (text, offset, length) in [
        ("X=.5", 2, 2),
        ("X = .5 [KM]", 4, 2),
        ("  X  =   5.   [DEG]  ", 9, 2),
        ("X=[KM]", 2, 4),
        ("X = [KM] 5", 4, 4),
        ("X=5[KM]", 2, 5),
        ("X = x y z", 4, 1),
        ("X==", 2, 1),
        ("X = = 5", 4, 1),
        ("X=12345678901234567 [KM]", 2, 17),
        ("X=- 5", 2, 1),
        ("X=1e5", 2, 3),
    ] {
        book.falls(&format!("{text:?}"), opm().put(10, text), Value, (10, offset, length));
    }
    for (text, offset, length) in [
        ("EPOCH=2000-01-01 00:00:00", 6, 19),
        ("EPOCH =  x  y  ", 9, 4),
        ("EPOCH=2000-01-01T00:00:00 [S]", 6, 23),
        ("EPOCH=.", 6, 1),
        ("EPOCH=2001-366T00:00:00", 6, 17),
        ("EPOCH=2000-01-01T22:59:60", 6, 19),
        (" EPOCH = =", 9, 1),
    ] {
        book.falls(&format!("{text:?}"), opm().put(9, text), Value, (9, offset, length));
    }
    for (text, offset, length) in
        [("7.0", 21, 3), ("  7 7 ", 23, 3), ("2147483648", 21, 10), ("7 [KM]", 21, 6), ("-", 21, 1), ("= 7", 21, 3)]
    {
        book.falls(&format!("degree {text:?}"), wide_oem().put(15, format!("INTERPOLATION_DEGREE={text}")), Value, (15, offset, length));
    }
    book.falls("second 60 under another system", opm().put(8, "TIME_SYSTEM=TAI").put(9, " EPOCH = 2016-366T23:59:60 "), Value, (9, 9, 17));
    book.falls(
        "second 60 of a set",
        wide_opm().put(8, "TIME_SYSTEM=GPS").put(35, "MAN_EPOCH_IGNITION=2016-366T23:59:60.5"),
        Value,
        (35, 19, 19),
    );
    book.falls("second 60 of a bound", oem().put(9, "TIME_SYSTEM=TT").put(10, "START_TIME=1999-12-31T23:59:60"), Value, (10, 11, 19));
    book.falls("a creation date", opm().put(2, "CREATION_DATE =2000-01-01"), Value, (2, 15, 10));
    book.falls("a value of 252 bytes", opm().put(10, format!("X={}", "9".repeat(252))), Value, (10, 2, 252));
}

/// A data line is blamed for its first wrong field alone.
fn data_fields(book: &mut ExplainBook) {
    let fields = ["2000-01-01T00:00:00", "1", "2", "3", "4", "5", "6"];
    let offsets = [0, 20, 22, 24, 26, 28, 30];
    for (wrong, offset) in offsets.into_iter().enumerate() {
        let with = |text: &str, from: usize| (0..7).map(|at| if at >= from { text } else { fields[at] }).collect::<Vec<_>>().join(" ");
        let only = |text: &str| (0..7).map(|at| if at == wrong { text } else { fields[at] }).collect::<Vec<_>>().join(" ");
        let place = (13, offset, 1);
        book.falls(&format!("field {wrong} wrong"), oem().put(13, only("x")), Value, place);
        book.falls(&format!("field {wrong} and all after it wrong"), oem().put(13, with("x", wrong)), Value, place);
        book.falls(&format!("field {wrong} of 3 bytes wrong"), oem().put(13, only(".55")), Value, (13, offset, 3));
        let spread = format!("   {}   ", only("x").replace(' ', "  "));
        book.falls(&format!("field {wrong} wrong, blanks"), oem().put(13, spread), Value, (13, offset + 3 + wrong, 1));
        let late = wide_oem().put(30, only("x").replace("01-01", "01-02"));
        book.falls(&format!("field {wrong} wrong in a second segment"), late, Value, (30, offset, 1));
        if wrong > 0 {
            // The fields are looked at before the order of times.
            let early = only("x").replace("2000", "1999");
            book.falls(&format!("field {wrong} wrong and the time too early"), oem().put(13, early), Value, place);
        }
    }
    let sixty = |rest: &str| oem().put(9, "TIME_SYSTEM=TAI").put(13, format!(" 2000-01-01T23:59:60 {rest}"));
    book.falls("second 60 in a data line", sixty("1 2 3 4 5 6"), Value, (13, 1, 19));
    book.falls("second 60 and a wrong number after it", sixty("1 2 x 4 5 6"), Value, (13, 1, 19));
}

/// UNIT: what follows the number, trimmed.
fn units(book: &mut ExplainBook) {
    for (text, offset, length) in [
        ("X=1 [M]", 4, 3),
        ("X=1 x", 4, 1),
        ("  X = 1    [KM] x  ", 11, 6),
        ("X=1  [KM]  [KM]", 5, 10),
        ("X=1 [ KM ]", 4, 6),
        ("X=1 =", 4, 1),
        ("X = 1 2 3 ", 6, 3),
        ("X=1 [km]", 4, 4),
        ("X=1                    [KM/S]   ", 23, 6),
    ] {
        book.falls(&format!("{text:?}"), opm().put(10, text), Unit, (10, offset, length));
    }
    for (line, text) in (1..).zip(wide_opm().0) {
        let text = String::from_utf8_lossy(&text).into_owned();
        if !matches!(line, 10..=27 | 29 | 30 | 32..=34 | 36 | 37 | 39..=41) {
            continue;
        }
        let offset = text.len() + 1;
        book.falls(&format!("\"{text} [N]\" at line {line}"), wide_opm().put(line, format!("{text} [N]")), Unit, (line, offset, 3));
    }
    for line in [17, 25, 27] {
        let text = String::from_utf8_lossy(&wide_opm().0[line - 1]).into_owned();
        let sheet = wide_opm().put(line, format!("{text}   [KM]  "));
        book.falls(&format!("a unit where there is none, line {line}"), sheet, Unit, (line, text.len() + 3, 4));
    }
    book.falls("the anomaly's unit", wide_opm().put(21, "MEAN_ANOMALY = 6 DEG"), Unit, (21, 17, 3));
}

/// TIME_ORDER: the epoch, wherever it stands.
fn times(book: &mut ExplainBook) {
    book.falls("STOP_TIME before START_TIME", oem().put(11, "  STOP_TIME = 1999-001T00:00:00 "), TimeOrder, (11, 14, 17));
    book.falls("USEABLE_START_TIME too early", wide_oem().put(11, "USEABLE_START_TIME=1999-001T00:00:00.5"), TimeOrder, (11, 19, 19));
    book.falls("USEABLE_STOP_TIME too early", wide_oem().put(12, "USEABLE_STOP_TIME=2000-001T00:00:00"), TimeOrder, (12, 18, 17));
    book.falls("STOP_TIME too early", wide_oem().put(13, "STOP_TIME=2000-002T00:00:00"), TimeOrder, (13, 10, 17));
    book.falls("a state before START_TIME", oem().put(13, "  1999-12-31T23:59:59.999999999  1 2 3 4 5 6 "), TimeOrder, (13, 2, 29));
    book.falls("a state after STOP_TIME", oem().put(13, "2000-001T00:00:00.000000001 1 2 3 4 5 6"), TimeOrder, (13, 0, 27));
    book.falls("a state at the time before it", wide_oem().put(18, " 2000-001T00:00:00 1 2 3 4 5 6"), TimeOrder, (18, 1, 17));
    book.falls("a state before the one before it", wide_oem().put(19, "2000-001T12:00:00 1 2 3 4 5 6"), TimeOrder, (19, 0, 17));
    book.falls("a bound of a second segment", wide_oem().put(27, "STOP_TIME=1999-365T23:59:60"), TimeOrder, (27, 10, 17));
    book.falls("a state of a second segment", wide_oem().put(30, "2000-01-01T00:00:00.0 1 2 3 4 5 6"), TimeOrder, (30, 0, 21));
}

/// What could stand after each line of the wide OPM.
const AFTER_OPM: [&[u32]; 41] = [
    &[2],
    &[3],
    &[4],
    &[5],
    &[6],
    &[7],
    &[8],
    &[9],
    &[10],
    &[11],
    &[12],
    &[13],
    &[14],
    &[15],
    &[16, 24],
    &[17],
    &[18],
    &[19],
    &[20],
    &[21, 22],
    &[23],
    &[24],
    &[25],
    &[26],
    &[27],
    &[28],
    &[29],
    &[30],
    &[31],
    &[32],
    &[33],
    &[34],
    &[35],
    &[29],
    &[30],
    &[31],
    &[32],
    &[33],
    &[34],
    &[35],
    &[29],
];

fn states_of_an_opm(book: &mut ExplainBook) {
    for (lines, codes) in (1..).zip(AFTER_OPM) {
        let ended = wide_opm().keep(lines);
        match lines {
            27 | 34 | 41 => book.stands(&format!("an OPM of {lines} lines"), ended.clone(), lines),
            _ => book.ends(&format!("an OPM of {lines} lines"), ended.clone(), codes),
        }
        // MASS could stand after 15 and after 22 lines, CREATION_DATE after none but the first.
        let (text, size) = if lines == 1 { ("MASS=1", 6) } else { ("CREATION_DATE = ", 15) };
        let place = (lines + 1, 0, size);
        book.misplaced(&format!("{text:?} after {lines} lines of an OPM"), wide_opm().insert(lines + 1, text), Order, place, codes);
        let twice = String::from_utf8_lossy(&wide_opm().0[lines - 1]).into_owned();
        if lines > 1 {
            let place = (lines + 1, 2, twice.len());
            let sheet = ended.add(format!("  {twice} "));
            book.misplaced(&format!("line {lines} of an OPM twice"), sheet, Order, place, codes);
        }
        let sheet = wide_opm().insert(lines + 1, "COMMENT x").insert(lines + 2, "").insert(lines + 3, text);
        book.misplaced(&format!("{text:?} after {lines} lines of an OPM and a comment"), sheet, Order, (lines + 3, 0, size), codes);
    }
    let mean = wide_opm().put(21, "MEAN_ANOMALY=6");
    book.ends("an OPM that ends after MEAN_ANOMALY", mean.clone().keep(21), &[23]);
    book.misplaced("TRUE_ANOMALY after MEAN_ANOMALY", mean.insert(22, "TRUE_ANOMALY=6"), Order, (22, 0, 14), &[23]);
    book.misplaced("GM without Keplerian elements", opm().insert(16, "GM=1"), Order, (16, 0, 4), &[16, 24]);
    book.misplaced("Keplerian elements after MASS", opm().insert(17, "SEMI_MAJOR_AXIS=1"), Order, (17, 0, 17), &[25]);
    book.misplaced("MASS within a set", wide_opm().insert(30, "MASS=1"), Order, (30, 0, 6), &[31]);
    book.misplaced("Keplerian elements left", opm().insert(16, "SEMI_MAJOR_AXIS=1"), Order, (17, 0, 6), &[17]);
    for line in 2..=40 {
        let next = wide_opm().0[line].len();
        book.misplaced(&format!("an OPM without line {line}"), wide_opm().drop(line), Order, (line, 0, next), AFTER_OPM[line - 2]);
    }
}

/// What could stand after each line of the wide OEM.
const AFTER_OEM: [&[u32]; 30] = [
    &[2],
    &[3],
    &[37],
    &[4],
    &[5],
    &[6],
    &[7],
    &[8],
    &[38],
    &[39, 40, 41],
    &[40, 41],
    &[41],
    &[42, 44],
    &[43],
    &[44],
    &[9],
    &[9, 37],
    &[9, 37],
    &[9, 37],
    &[4],
    &[5],
    &[6],
    &[7],
    &[8],
    &[38],
    &[39, 40, 41],
    &[42, 44],
    &[9],
    &[9, 37],
    &[9, 37],
];

fn states_of_an_oem(book: &mut ExplainBook) {
    for (lines, codes) in (1..).zip(AFTER_OEM) {
        let ended = wide_oem().keep(lines);
        match lines {
            17 => book.stands("an OEM of 17 lines", ended, 23),
            18 => book.stands("an OEM of 18 lines", ended, 30),
            19 => book.stands("an OEM of 19 lines", ended, 37),
            29 => book.stands("an OEM of 29 lines", ended, 53),
            30 => book.stands("an OEM of 30 lines", ended, 60),
            _ => book.ends(&format!("an OEM of {lines} lines"), ended, codes),
        }
        let (text, size) = if lines == 1 { ("STOP_TIME=", 10) } else { ("CREATION_DATE = ", 15) };
        let place = (lines + 1, 0, size);
        book.misplaced(&format!("{text:?} after {lines} lines of an OEM"), wide_oem().insert(lines + 1, text), Order, place, codes);
        // After a data line and a comment no data line could stand.
        let after_comment = if codes == [9, 37] { &[37][..] } else { codes };
        let sheet = wide_oem().insert(lines + 1, "COMMENT x").insert(lines + 2, "").insert(lines + 3, text);
        let place = (lines + 3, 0, size);
        book.misplaced(&format!("{text:?} after {lines} lines of an OEM and a comment"), sheet, Order, place, after_comment);
        let sheet = wide_oem().insert(lines + 1, "  ").insert(lines + 2, text);
        book.misplaced(&format!("{text:?} after {lines} lines of an OEM and a blank one"), sheet, Order, (lines + 2, 0, size), codes);
        for (code, text, offset, size) in [(37, " META_START  ", 1, 10), (44, "META_STOP", 0, 9), (9, "1 2 3 4 5 6  7 ", 0, 14)] {
            if !codes.contains(&code) {
                let sheet = wide_oem().insert(lines + 1, text);
                book.misplaced(&format!("{text:?} after {lines} lines of an OEM"), sheet, Order, (lines + 1, offset, size), codes);
            }
        }
    }
    let without = wide_oem().drop(11);
    book.misplaced("USEABLE_STOP_TIME twice", without.clone().twice(11), Order, (12, 0, 37), &[41]);
    book.ends("an OEM that ends after USEABLE_STOP_TIME alone", without.keep(11), &[41]);
    book.misplaced("a degree without INTERPOLATION", wide_oem().drop(14), Order, (14, 0, 22), &[42, 44]);
    book.misplaced("INTERPOLATION without a degree", wide_oem().drop(15), Order, (15, 0, 9), &[43]);
    book.misplaced("an OEM without STOP_TIME", wide_oem().drop(13), Order, (13, 0, 21), &[41]);
    book.misplaced("an OEM without START_TIME", wide_oem().drop(10), Order, (10, 0, 38), &[38]);
}

/// A data line could stand after data, but not after data and a comment.
fn comments_and_data(book: &mut ExplainBook) {
    let state = " 2000-01-03T00:00:00 1 2 3 4 5 6  ";
    let size = state.trim().len();
    book.misplaced("a comment between data lines", oem().add("COMMENT").add(state), Order, (15, 1, size), &[37]);
    book.misplaced("two comments between data lines", oem().add("COMMENT").add("COMMENT x").add(state), Order, (16, 1, size), &[37]);
    let gaps = oem().add("").add("COMMENT").add("   ").add("").add(state);
    book.misplaced("a comment among blank lines between data lines", gaps, Order, (18, 1, size), &[37]);
    book.misplaced("META_STOP after data and a comment", oem().add("COMMENT").add("META_STOP"), Order, (15, 0, 9), &[37]);
    book.misplaced("META_STOP after data", oem().add("META_STOP"), Order, (14, 0, 9), &[9, 37]);
    book.misplaced("META_STOP after data and blank lines", oem().add("").add(" ").add("META_STOP"), Order, (16, 0, 9), &[9, 37]);
    let early = oem().insert(13, "COMMENT x").add("META_STOP");
    book.misplaced("a comment before data is none after it", early, Order, (15, 0, 9), &[9, 37]);
    let header = oem().insert(13, "COMMENT x").insert(13, "META_STOP");
    book.misplaced("a comment after the blamed line is none before it", header, Order, (13, 0, 9), &[9]);
    book.misplaced("META_STOP twice and a comment between", oem().insert(13, "COMMENT").insert(14, "META_STOP"), Order, (14, 0, 9), &[9]);
    let second = wide_oem().insert(30, "COMMENT").insert(31, "OBJECT_NAME=B");
    book.misplaced("a comment after data of a second segment", second, Order, (31, 0, 13), &[37]);
    let first = wide_oem().insert(20, "COMMENT").add("OBJECT_NAME=B");
    book.misplaced("a comment after data of the first segment alone", first, Order, (32, 0, 13), &[9, 37]);
    let begun = oem().add("COMMENT").add("META_START").add(state);
    book.misplaced("a data line right after META_START", begun, Order, (16, 1, size), &[4]);
    book.ends("a segment begun after a comment", oem().add("COMMENT").add("META_START"), &[4]);
    let looks = oem().add("COMMENTS").drop(14).add("COMMENT = x").add("META_STOP");
    book.misplaced("a comment with a sign is a comment", looks, Order, (15, 0, 9), &[37]);
    book.ends("a comment after META_STOP", oem().drop(13).add("COMMENT"), &[9]);
}

/// ORDER: the trimmed line, of whatever sort.
fn order_lines(book: &mut ExplainBook) {
    for (text, offset, length) in
        [("Y=2", 0, 3), ("  Y = 2 [KM]  ", 2, 10), ("Y=", 0, 2), (" Y =  ", 1, 3), ("Y==", 0, 3), (" Y = . x ", 1, 7), ("EPOCH = x", 0, 9)]
    {
        book.misplaced(&format!("{text:?} for X"), opm().put(10, text), Order, (10, offset, length), &[10]);
    }
    for (text, offset, length) in
        [("  META_STOP", 2, 9), (" x x x  x x x x ", 1, 14), ("STOP_TIME=x", 0, 11), (" INTERPOLATION_DEGREE =", 1, 22)]
    {
        book.misplaced(&format!("{text:?} for META_START"), oem().put(4, text), Order, (4, offset, length), &[37]);
    }
    book.misplaced("a line of 254 bytes", opm().put(10, padded("Y=2", 254)), Order, (10, 0, 3), &[10]);
    book.misplaced("a text of 254 bytes", opm().put(10, format!("ORIGINATOR={}", "x".repeat(243))), Order, (10, 0, 254), &[10]);
    book.misplaced("a line after 251 blanks", opm().put(10, format!("{:>254}", "Y=2")), Order, (10, 251, 3), &[10]);
}

/// SHORT: nothing, where the next heading line begins or the feed ends.
fn ends(book: &mut ExplainBook) {
    let short = || oem().drop(13);
    assert_eq!(short().ended(b"\n").len(), 212);
    book.add("SHORT without an ending", short().joined(), 1, blamed(Short, 13, 211, 0, &[9]));
    book.add("SHORT with a blank line at its end", short().add(""), 1, blamed(Short, 14, 213, 0, &[9]));
    book.add("SHORT with blanks at its end", [short().ended(b"\n"), b"   ".to_vec()].concat(), 1, blamed(Short, 14, 215, 0, &[9]));
    book.add("SHORT with a comment at its end", short().add("COMMENT x").joined(), 1, blamed(Short, 14, 221, 0, &[9]));
    for (name, heading) in
        [("", "CCSDS_OEM_VERS=1.0"), (" after blanks", "     CCSDS_OPM_VERS  =  "), (" that is wrong", "CCSDS_OEM_VERS=\t")]
    {
        let feed = |sheet: Sheet| [sheet.ended(b"\n"), heading.as_bytes().to_vec()].concat();
        book.add(&format!("SHORT before a heading{name}"), feed(short()), 1, blamed(Short, 13, 212, 0, &[9]));
        book.add(&format!("SHORT and a blank line before a heading{name}"), feed(short().add("")), 1, blamed(Short, 14, 213, 0, &[9]));
        book.add(&format!("a heading alone before a heading{name}"), feed(oem().keep(1)), 1, blamed(Short, 2, 19, 0, &[2]));
    }
    let heading = b"CCSDS_OPM_VERS = 1.0".to_vec();
    book.add("a heading alone", heading.clone(), 1, blamed(Short, 2, 20, 0, &[2]));
    book.add("a heading and a CR", [&heading[..], b"\r"].concat(), 1, blamed(Short, 2, 21, 0, &[2]));
    book.add("a heading and CR LF", [&heading[..], b"\r\n"].concat(), 1, blamed(Short, 2, 22, 0, &[2]));
    book.add("a heading and LF CR CR", [&heading[..], b"\n\r\r"].concat(), 1, blamed(Short, 3, 23, 0, &[2]));
    book.add("a heading and a blank", [&heading[..], b" "].concat(), 1, blamed(Short, 2, 21, 0, &[2]));
    book.add("a heading and two blanks in a line", [&heading[..], b"\n  "].concat(), 1, blamed(Short, 3, 23, 0, &[2]));
}

/// Every ending moves what comes after it.
fn endings(book: &mut ExplainBook) {
    let names: [(&str, &[u8]); 4] = [("LF", b"\n"), ("CR", b"\r"), ("CR LF", b"\r\n"), ("LF CR", b"\n\r")];
    for (name, ending) in names {
        let size = ending.len();
        let feed = |sheet: Sheet| sheet.ended(ending);
        let with = |what: &str| format!("{what} among lines ended by {name}");
        book.add(&with("LONG"), feed(oem().put(4, " ".repeat(255))), 1, blamed(Long, 4, 63 + 3 * size + 254, 1, &[]));
        book.add(&with("BYTE"), feed(oem().put(4, "META_START\t")), 1, blamed(Byte, 4, 63 + 3 * size + 10, 1, &[]));
        book.add(&with("FORM"), feed(oem().put(4, " META")), 1, blamed(Form, 4, 63 + 3 * size + 1, 4, &[]));
        book.add(&with("KEYWORD"), feed(oem().put(4, "META_START=")), 1, blamed(Keyword, 4, 63 + 3 * size, 10, &[]));
        book.add(&with("an empty keyword"), feed(oem().put(4, " =")), 1, blamed(Keyword, 4, 63 + 3 * size + 1, 0, &[]));
        book.add(&with("ORDER"), feed(oem().put(4, "META_STOP")), 1, blamed(Order, 4, 63 + 3 * size, 9, &[37]));
        book.add(&with("VALUE"), feed(oem().put(2, "CREATION_DATE=x")), 1, blamed(Value, 2, 18 + size + 14, 1, &[]));
        book.add(&with("an empty value"), feed(oem().put(3, "ORIGINATOR=")), 1, blamed(Value, 3, 51 + 2 * size + 11, 0, &[]));
        book.add(&with("UNIT"), feed(opm().put(10, "X=1 [M]")), 1, blamed(Unit, 10, 151 + 9 * size + 4, 3, &[]));
        let late = oem().put(11, "STOP_TIME=1999-001T00:00:00");
        book.add(&with("TIME_ORDER"), feed(late), 1, blamed(TimeOrder, 11, 164 + 10 * size + 10, 17, &[]));
        book.add(&with("SHORT"), feed(oem().drop(13)), 1, blamed(Short, 13, 200 + 12 * size, 0, &[9]));
        let gaps = oem().insert(2, "").insert(2, "").keep(5).add("META_STOP");
        book.add(&with("ORDER after blank lines"), feed(gaps), 1, blamed(Order, 6, 63 + 5 * size, 9, &[37]));
        book.add(
            &with("an empty value at the end"),
            oem().keep(2).add("ORIGINATOR=").ended(ending),
            1,
            blamed(Value, 3, 62 + 2 * size, 0, &[]),
        );
    }
    let turns = oem().put(4, "META_STOP").ended_in_turn(&[b"\n", b"\r\n", b"\r", b"\n\r"]);
    book.add("ORDER among endings in turn", turns, 1, blamed(Order, 4, 63 + 4, 9, &[37]));
}

/// Messages that are not the first: lines count within the message, places within the feed.
fn messages(book: &mut ExplainBook) {
    let junk = b"junk\r\n\x00\tCCSDS_OPM_VERS=1.0\n\n".to_vec();
    assert_eq!(junk.len(), 28);
    let wrongs: [(&str, Sheet, Explained); 9] = [
        ("LONG", opm().put(3, " ".repeat(260)), blamed(Long, 3, 53 + 254, 6, &[])),
        ("BYTE", opm().put(3, "\x7f"), blamed(Byte, 3, 53, 1, &[])),
        ("FORM", opm().put(3, "  x"), blamed(Form, 3, 55, 1, &[])),
        ("KEYWORD", opm().put(3, " ="), blamed(Keyword, 3, 54, 0, &[])),
        ("ORDER", opm().put(3, " OBJECT_ID=x"), blamed(Order, 3, 54, 11, &[3])),
        ("VALUE", opm().put(3, "ORIGINATOR ="), blamed(Value, 3, 65, 0, &[])),
        ("UNIT", opm().put(10, "X=1 x"), blamed(Unit, 10, 164, 1, &[])),
        ("TIME_ORDER", oem().twice(13), blamed(TimeOrder, 14, 244, 19, &[])),
        ("SHORT", oem().keep(10), blamed(Short, 11, 174, 0, &[39, 40, 41])),
    ];
    for (name, sheet, want) in wrongs {
        let own = sheet.ended(b"\n");
        let moved = |by: usize| Explained { start: want.start + by as u32, ..want };
        let [first, last] = [oem().ended(b"\n"), opm().ended(b"\n")];
        book.add(&format!("{name} after junk"), [&junk[..], &own].concat(), 1, moved(28));
        book.add(&format!("{name} in a second message"), [&first[..], &own].concat(), 2, moved(244));
        book.add(&format!("{name} in a second message after junk"), [&junk[..], &first, &own, &last].concat(), 2, moved(272));
        book.add(&format!("{name} in a third message"), [&first[..], &own, &own, &last].concat(), 3, moved(244 + own.len()));
        book.add(&format!("{name} before another message"), [&own[..], &last].concat(), 1, want);
        let (feed, rows) = ([&own[..], &last].concat(), Explained::accepted(20));
        book.add(&format!("a message after one with {name}"), feed, 2, rows);
        book.add(&format!("no message after one with {name}"), own, 2, Explained::refused(NoMessage));
    }
    let short = [oem().keep(1).ended(b"\n"), b"  CCSDS_OPM_VERS=1.0\n".to_vec()].concat();
    book.add("two headings, the first", short.clone(), 1, blamed(Short, 2, 19, 0, &[2]));
    book.add("two headings, the second", short, 2, blamed(Short, 2, 40, 0, &[2]));
}

/// Two things wrong with a line or with two: the bytes are those of the one that is named.
fn first_reasons(book: &mut ExplainBook) {
    book.misplaced("ORDER before VALUE and UNIT", opm().put(10, "Y = . [M]"), Order, (10, 0, 9), &[10]);
    book.falls("KEYWORD before all that comes after", opm().put(10, " y = . [M]"), Keyword, (10, 1, 1));
    book.falls("VALUE before UNIT", opm().put(10, "X=. [M]"), Value, (10, 2, 1));
    book.falls("LONG before BYTE", opm().put(10, padded("X=\t", 256)), Long, (10, 254, 2));
    book.falls("BYTE before KEYWORD", opm().put(10, "  y =\t"), Byte, (10, 5, 1));
    book.falls("the earlier line of two", opm().put(10, "X=").put(11, "y=1"), Value, (10, 2, 0));
    book.misplaced("ORDER before TIME_ORDER", oem().insert(12, "STOP_TIME=1999-001T00:00:00"), Order, (12, 0, 27), &[42, 44]);
    book.misplaced("a parted data line with everything wrong", oem().add("COMMENT").add("x x x x x x x"), Order, (15, 0, 13), &[37]);
    book.falls("VALUE before TIME_ORDER", oem().put(13, "1999-001T00:00:00 1 2 3 4 5 x"), Value, (13, 28, 1));
    book.falls("VALUE before SHORT", oem().put(12, "META_STOP").keep(11).put(11, "STOP_TIME=x"), Value, (11, 10, 1));
}

/// Places and lines that 16 bits do not count.
fn great_feeds(book: &mut ExplainBook) {
    const GAP: usize = 70_000;
    let gap = vec![b'\n'; GAP];
    // The heading's line has 19 bytes, the 70,000 blank ones as many, and the next line is 70,002.
    let after = |text: &[u8]| [b"CCSDS_OPM_VERS=1.0\n", &gap[..], text].concat();
    book.add("FORM after many lines", after(b" x"), 1, blamed(Form, 70_002, 70_020, 1, &[]));
    book.add("BYTE after many lines", after(b"x\x80"), 1, blamed(Byte, 70_002, 70_020, 1, &[]));
    book.add("LONG after many lines", after(&[b'x'; 300]), 1, blamed(Long, 70_002, 70_273, 46, &[]));
    book.add("KEYWORD after many lines", after(b"  =x\n"), 1, blamed(Keyword, 70_002, 70_021, 0, &[]));
    book.add("ORDER after many lines", after(b" X=1\n"), 1, blamed(Order, 70_002, 70_020, 3, &[2]));
    book.add("VALUE after many lines", after(b"CREATION_DATE="), 1, blamed(Value, 70_002, 70_033, 0, &[]));
    book.add("SHORT after many lines", after(b""), 1, blamed(Short, 70_002, 70_019, 0, &[2]));
    let front = opm().ended(b"\n");
    let after = |sheet: Sheet| [&front[..], &gap, &sheet.ended(b"\n")].concat();
    let size = front.len() + GAP;
    book.add("UNIT after many bytes", after(opm().put(10, "X=1 x")), 2, blamed(Unit, 10, size + 164, 1, &[]));
    book.add("TIME_ORDER after many bytes", after(oem().twice(13)), 2, blamed(TimeOrder, 14, size + 244, 19, &[]));
    book.stands("many lines, accepted", [&front[..], &gap].concat(), 20);
    let greatest = |text: &[u8], byte| Bytes::padded(text, FEED_LIMIT, byte);
    book.add("the longest line", greatest(b"CCSDS_OPM_VERS=1.0\n", b'x'), 1, blamed(Long, 2, 273, 16_776_942, &[]));
    book.add("the longest heading", greatest(b"CCSDS_OPM_VERS=", b' '), 1, blamed(Long, 1, 254, 16_776_961, &[]));
    let mut last = vec![b'x'; FEED_LIMIT];
    let end = b"\nCCSDS_OEM_VERS=1.0\nCREATION_DATE=";
    last[FEED_LIMIT - end.len()..].copy_from_slice(end);
    book.add("an empty value at the greatest feed's end", last, 1, blamed(Value, 2, FEED_LIMIT, 0, &[]));
    let mut last = vec![b' '; FEED_LIMIT];
    let end = b"\nCCSDS_OEM_VERS=1.0";
    last[FEED_LIMIT - end.len()..].copy_from_slice(end);
    book.add("SHORT at the greatest feed's end", last, 1, blamed(Short, 2, FEED_LIMIT, 0, &[2]));
}
