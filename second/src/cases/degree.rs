//! Cases about INTERPOLATION and its degree: both stand in a META block or neither does, and which line is blamed where one stands alone.

use super::{joined_sheets, oem, opm, row, wide_oem, Book, Sheet, Want};
use crate::judge::Reason::{self, *};

pub(super) const METHOD: &str = "INTERPOLATION=Hermite";
pub(super) const DEGREE: &str = "INTERPOLATION_DEGREE=7";
const WRONG_METHOD: &str = "INTERPOLATION=";
const WRONG_DEGREE: &str = "INTERPOLATION_DEGREE=x";
const DATA: &str = "2000-01-01T00:00:00 1 2 3 4 5 6";
const USEABLE_START: &str = "USEABLE_START_TIME=2000-001T00:00:00";
const USEABLE_STOP: &str = "USEABLE_STOP_TIME=2000-001T00:00:00";

/// A META block without the two lines, the sheet that it stands in with its rows, and the line of its META_STOP.
struct Block {
    name: &'static str,
    sheet: Sheet,
    rows: usize,
    stop: usize,
}

fn block(name: &'static str, sheet: Sheet, rows: usize, stop: usize) -> Block {
    Block { name, sheet, rows, stop }
}

/// The only segment, the first and the second of two, each with and without useable times.
fn blocks() -> [Block; 11] {
    // Neither segment has the two lines: META_STOP at 14 and 26.
    let neither = || wide_oem().drop(14).drop(14);
    [
        block("the only segment", oem(), 19, 12),
        block("the only segment, both useable times", oem().insert(11, USEABLE_START).insert(12, USEABLE_STOP), 21, 14),
        block("the only segment, a useable start", oem().insert(11, USEABLE_START), 20, 13),
        block("the only segment, a useable stop", oem().insert(11, USEABLE_STOP), 20, 13),
        block("the first segment", neither().drop(11).drop(11), 56, 12),
        block("the first segment, both useable times", neither(), 58, 14),
        block("the first segment before one with both lines", neither().insert(26, METHOD).insert(27, DEGREE), 60, 14),
        block("the second segment", neither(), 58, 26),
        block("the second segment, both useable times", neither().insert(25, USEABLE_START).insert(26, USEABLE_STOP), 60, 28),
        block("the second segment after one with both lines", wide_oem(), 60, 28),
        block("the second segment after one with both lines and no useable times", wide_oem().drop(11).drop(11), 58, 26),
    ]
}

/// What must come of lines before META_STOP: so many rows more, or a reason at one of them by its place from 0; META_STOP has the place after the
/// last.
#[derive(Clone, Copy)]
enum Comes {
    Stands(usize),
    Falls(Reason, usize),
}

use Comes::{Falls, Stands};

/// The sheet with lines put before the line of this number.
pub(super) fn with(sheet: &Sheet, line: usize, lines: &[&str]) -> Sheet {
    lines.iter().rev().fold(sheet.clone(), |sheet, text| sheet.insert(line, text))
}

/// Every block with each of these lists of lines before its META_STOP.
fn fill(book: &mut Book, fills: &[(&[&str], Comes)]) {
    for Block { name, sheet, rows, stop } in blocks() {
        for (lines, comes) in fills {
            let name = format!("{name}: {lines:?} before META_STOP");
            let filled = with(&sheet, stop, lines);
            match comes {
                Stands(more) => book.stands(&name, filled, rows + more),
                Falls(reason, place) => book.falls(&name, filled, *reason, stop + place),
            }
        }
    }
}

/// Both, neither, one alone, exchanged and doubled.
pub(super) fn alone(book: &mut Book) {
    fill(
        book,
        &[
            (&[], Stands(0)),
            (&[METHOD, DEGREE], Stands(2)),
            (&[DEGREE], Falls(Order, 0)),
            (&[METHOD], Falls(Order, 1)),
            (&[DEGREE, METHOD], Falls(Order, 0)),
            (&[METHOD, METHOD], Falls(Order, 1)),
            (&[METHOD, METHOD, DEGREE], Falls(Order, 1)),
            (&[METHOD, METHOD, DEGREE, DEGREE], Falls(Order, 1)),
            (&[METHOD, DEGREE, DEGREE], Falls(Order, 2)),
            (&[METHOD, DEGREE, METHOD], Falls(Order, 2)),
            (&[METHOD, DEGREE, METHOD, DEGREE], Falls(Order, 2)),
            (&[DEGREE, DEGREE], Falls(Order, 0)),
            (&[DEGREE, DEGREE, METHOD], Falls(Order, 0)),
            (&[DEGREE, METHOD, DEGREE], Falls(Order, 0)),
            (&[DEGREE, METHOD, METHOD, DEGREE], Falls(Order, 0)),
        ],
    );
}

/// Comments and blank lines before, between and after the two; the blamed line stays that of the degree or of META_STOP.
pub(super) fn gaps(book: &mut Book) {
    fill(
        book,
        &[
            (&["COMMENT x", METHOD, DEGREE], Stands(3)),
            (&[METHOD, "COMMENT x", DEGREE], Stands(3)),
            (&[METHOD, DEGREE, "COMMENT x"], Stands(3)),
            (&["COMMENT", METHOD, "COMMENT y", "COMMENT z", DEGREE, "COMMENT"], Stands(6)),
            (&["", METHOD, "   ", "", DEGREE, "  "], Stands(2)),
            (&["", METHOD, "COMMENT", " ", DEGREE, "", "COMMENT x"], Stands(4)),
            (&[METHOD, "COMMENT INTERPOLATION = Hermite", DEGREE], Stands(3)),
            (&[METHOD, DEGREE, "COMMENT INTERPOLATION_DEGREE = 7"], Stands(3)),
            (&["COMMENT INTERPOLATION = Hermite", "COMMENT INTERPOLATION_DEGREE = 7"], Stands(2)),
            (&["COMMENT x", DEGREE], Falls(Order, 1)),
            (&["", DEGREE], Falls(Order, 1)),
            (&["   ", "COMMENT", "", DEGREE, "COMMENT", ""], Falls(Order, 3)),
            (&["COMMENT INTERPOLATION = Hermite", DEGREE], Falls(Order, 1)),
            (&["COMMENT INTERPOLATION=Hermite", "", DEGREE, METHOD], Falls(Order, 2)),
            (&[DEGREE, "COMMENT x", METHOD], Falls(Order, 0)),
            (&[DEGREE, "", "COMMENT"], Falls(Order, 0)),
            (&["COMMENT x", METHOD], Falls(Order, 2)),
            (&[METHOD, "COMMENT x"], Falls(Order, 2)),
            (&[METHOD, ""], Falls(Order, 2)),
            (&["", METHOD, "  ", "COMMENT", ""], Falls(Order, 5)),
            (&[METHOD, "COMMENT INTERPOLATION_DEGREE = 7"], Falls(Order, 2)),
            (&[METHOD, "COMMENT", METHOD, DEGREE], Falls(Order, 2)),
            (&[METHOD, "", DEGREE, "COMMENT", DEGREE], Falls(Order, 4)),
        ],
    );
}

/// Wrong values: ORDER comes before VALUE on one line, and an earlier line before both.
pub(super) fn values(book: &mut Book) {
    fill(
        book,
        &[
            (&[WRONG_METHOD, DEGREE], Falls(Value, 0)),
            (&[METHOD, WRONG_DEGREE], Falls(Value, 1)),
            (&[WRONG_METHOD, WRONG_DEGREE], Falls(Value, 0)),
            (&[WRONG_DEGREE], Falls(Order, 0)),
            (&["INTERPOLATION_DEGREE="], Falls(Order, 0)),
            (&["INTERPOLATION_DEGREE=2147483648"], Falls(Order, 0)),
            (&["INTERPOLATION_DEGREE=7 [KM]"], Falls(Order, 0)),
            (&[WRONG_METHOD], Falls(Value, 0)),
            (&["INTERPOLATION=   "], Falls(Value, 0)),
            (&[WRONG_DEGREE, METHOD], Falls(Order, 0)),
            (&[DEGREE, WRONG_METHOD], Falls(Order, 0)),
            (&[METHOD, WRONG_METHOD], Falls(Order, 1)),
            (&[METHOD, WRONG_METHOD, DEGREE], Falls(Order, 1)),
            (&[WRONG_METHOD, METHOD, DEGREE], Falls(Value, 0)),
            (&[METHOD, DEGREE, WRONG_DEGREE], Falls(Order, 2)),
            (&[METHOD, WRONG_DEGREE, DEGREE], Falls(Value, 1)),
            (&[METHOD, DEGREE, WRONG_METHOD], Falls(Order, 2)),
            (&[METHOD, "COMMENT", WRONG_DEGREE], Falls(Value, 2)),
            (&[METHOD, "INTERPOLATION_DEGREE=2147483647"], Stands(2)),
            (&[METHOD, "INTERPOLATION_DEGREE=2147483648"], Falls(Value, 1)),
            (&[METHOD, "INTERPOLATION_DEGREE=-0"], Stands(2)),
            (&[METHOD, "INTERPOLATION_DEGREE=7.0"], Falls(Value, 1)),
            (&[METHOD, "INTERPOLATION_DEGREE=7 [KM]"], Falls(Value, 1)),
            (&["INTERPOLATION=7", "INTERPOLATION_DEGREE=7"], Stands(2)),
            // A line's value does not make up for the other line.
            (&["INTERPOLATION=INTERPOLATION_DEGREE=7"], Falls(Order, 1)),
            (&["INTERPOLATION=Hermite 7"], Falls(Order, 1)),
            (&["INTERPOLATION=INTERPOLATION", "INTERPOLATION=INTERPOLATION_DEGREE"], Falls(Order, 1)),
            (&["INTERPOLATION_DEGREE=INTERPOLATION"], Falls(Order, 0)),
        ],
    );
}

/// Blanks about a word don't matter; its letters do, and blanks within it.
pub(super) fn spellings(book: &mut Book) {
    fill(
        book,
        &[
            (&["   INTERPOLATION   =   Hermite   ", "  INTERPOLATION_DEGREE  =  7  "], Stands(2)),
            (&["INTERPOLATION =Hermite", "INTERPOLATION_DEGREE= 7"], Stands(2)),
            (&["INTERPOLATION=hermite", "INTERPOLATION_DEGREE=+07"], Stands(2)),
            (&["  INTERPOLATION_DEGREE  =  7  "], Falls(Order, 0)),
            (&["   INTERPOLATION   =   Hermite   "], Falls(Order, 1)),
            (&["interpolation=Hermite"], Falls(Keyword, 0)),
            (&["interpolation=Hermite", DEGREE], Falls(Keyword, 0)),
            (&["Interpolation=Hermite", DEGREE], Falls(Keyword, 0)),
            (&["interpolation_degree=7"], Falls(Keyword, 0)),
            (&[METHOD, "interpolation_degree=7"], Falls(Keyword, 1)),
            (&[METHOD, "Interpolation_Degree=7"], Falls(Keyword, 1)),
            (&[METHOD, "INTERPOLATION DEGREE=7"], Falls(Keyword, 1)),
            (&[METHOD, "INTERPOLATION_ DEGREE=7"], Falls(Keyword, 1)),
            (&[METHOD, "INTERPOLATION_DEGREES=7"], Falls(Keyword, 1)),
            (&[METHOD, "INTERPOLATION_DEGRE=7"], Falls(Keyword, 1)),
            (&["INTERPOLATIO=Hermite", DEGREE], Falls(Keyword, 0)),
            (&["INTERPOLATIONS=Hermite", DEGREE], Falls(Keyword, 0)),
            (&["INTERPOLATION", DEGREE], Falls(Form, 0)),
            (&[METHOD, "INTERPOLATION_DEGREE"], Falls(Form, 1)),
            (&[METHOD, "INTERPOLATION_DEGREE 7"], Falls(Form, 1)),
            (&[METHOD, "COMMENT=7"], Falls(Keyword, 1)),
            (&[METHOD, "COMMENTS"], Falls(Form, 1)),
            (&[METHOD, "   META_STOP  "], Falls(Order, 1)),
            (&[METHOD, "meta_stop"], Falls(Form, 1)),
            (&[METHOD, "Meta_Stop"], Falls(Form, 1)),
            (&[METHOD, "META STOP"], Falls(Form, 1)),
            (&[METHOD, "META_STOP x"], Falls(Form, 1)),
            (&[METHOD, "META_STOP="], Falls(Keyword, 1)),
            (&[METHOD, "META_STOP = 7"], Falls(Keyword, 1)),
            (&[METHOD, DEGREE, "meta_stop"], Falls(Form, 2)),
            (&[METHOD, DEGREE, "META_STOP="], Falls(Keyword, 2)),
            // The first META_STOP is right, and the block's own comes too late.
            (&[METHOD, DEGREE, "   META_STOP  "], Falls(Order, 3)),
        ],
    );
}

/// Other lines where the degree is due, and after the two.
pub(super) fn others(book: &mut Book) {
    fill(
        book,
        &[
            (&[METHOD, DATA], Falls(Order, 1)),
            (&[METHOD, DATA, DEGREE], Falls(Order, 1)),
            (&[METHOD, "COMMENT x", DATA], Falls(Order, 2)),
            (&[METHOD, "x x x x x x x"], Falls(Order, 1)),
            (&[METHOD, "x x x x x x"], Falls(Form, 1)),
            (&[METHOD, "META_START"], Falls(Order, 1)),
            (&[METHOD, " META_START "], Falls(Order, 1)),
            (&[METHOD, "STOP_TIME=2000-001T00:00:00"], Falls(Order, 1)),
            (&[METHOD, "START_TIME=2000-001T00:00:00"], Falls(Order, 1)),
            (&[METHOD, USEABLE_STOP], Falls(Order, 1)),
            (&[METHOD, "OBJECT_NAME=B"], Falls(Order, 1)),
            (&[METHOD, "TIME_SYSTEM="], Falls(Order, 1)),
            (&[METHOD, "ORIGINATOR=A"], Falls(Order, 1)),
            (&[METHOD, "EPOCH=2000-001T00:00:00"], Falls(Keyword, 1)),
            (&[METHOD, "x"], Falls(Form, 1)),
            (&[METHOD, "="], Falls(Keyword, 1)),
            (&[METHOD, "\t"], Falls(Byte, 1)),
            (&[METHOD, "INTERPOLATION_DEGREE=7\t"], Falls(Byte, 1)),
            (&["INTERPOLATION_DEGREE=7\t"], Falls(Byte, 0)),
            (&[DEGREE, DATA], Falls(Order, 0)),
            (&[DEGREE, "META_START"], Falls(Order, 0)),
            (&[DEGREE, "x"], Falls(Order, 0)),
            (&[METHOD, DEGREE, DATA], Falls(Order, 2)),
            (&[METHOD, DEGREE, "META_START"], Falls(Order, 2)),
            (&[METHOD, DEGREE, "STOP_TIME=2000-001T00:00:00"], Falls(Order, 2)),
            (&[METHOD, DEGREE, "x"], Falls(Form, 2)),
        ],
    );
    let [long, just] = [255, 254].map(|size| format!("{DEGREE:size$}"));
    fill(
        book,
        &[
            (&[METHOD, &long], Falls(Long, 1)),
            (&[&long], Falls(Long, 0)),
            (&[METHOD, &just], Stands(2)),
            (&[&just], Falls(Order, 0)),
            (&[METHOD, DEGREE, &just], Falls(Order, 2)),
        ],
    );
}

/// The two lines out of their place in the block, together or one of them.
pub(super) fn elsewhere(book: &mut Book) {
    for Block { name, sheet, stop, .. } in blocks() {
        for lines in [&[METHOD, DEGREE][..], &[METHOD], &[DEGREE]] {
            let mut falls = |place: &str, line: usize| {
                book.falls(&format!("{name}: {lines:?} {place}"), with(&sheet, line, lines), Order, line);
            };
            falls("before STOP_TIME", stop - 1);
            falls("after META_STOP", stop + 1);
            falls("after a data line", stop + 2);
            falls("in the header", 3);
            falls("before META_START", 4);
            falls("after META_START", 5);
        }
        let parted = with(&with(&sheet, stop, &[DEGREE]), stop - 1, &[METHOD]);
        book.falls(&format!("{name}: STOP_TIME between the two"), parted, Order, stop - 1);
        let parted = with(&with(&sheet, stop + 1, &[DEGREE]), stop, &[METHOD]);
        book.falls(&format!("{name}: META_STOP between the two"), parted, Order, stop + 1);
    }
    let neither = || wide_oem().drop(14).drop(14);
    book.falls("INTERPOLATION in one segment, its degree in the next", neither().insert(26, DEGREE).insert(14, METHOD), Order, 15);
    book.falls("a degree in one segment, INTERPOLATION in the next", neither().insert(26, METHOD).insert(14, DEGREE), Order, 14);
    book.falls("INTERPOLATION alone in both segments", neither().insert(26, METHOD).insert(14, METHOD), Order, 15);
    book.falls("a degree alone in both segments", neither().insert(26, DEGREE).insert(14, DEGREE), Order, 14);
    book.falls("the degree for STOP_TIME", oem().put(11, DEGREE), Order, 11);
    book.falls("INTERPOLATION for STOP_TIME", oem().put(11, METHOD), Order, 11);
    book.falls("the degree for META_STOP", oem().put(12, DEGREE), Order, 12);
    book.falls("INTERPOLATION for META_STOP", oem().put(12, METHOD), Order, 13);
    for line in [METHOD, DEGREE] {
        book.falls(&format!("{line:?} in an OPM"), opm().insert(9, line), Keyword, 9);
    }
}

/// Another fault on an earlier line comes first, and one on a later line doesn't.
pub(super) fn other_faults(book: &mut Book) {
    let degree = || oem().insert(12, DEGREE);
    let method = || oem().insert(12, METHOD);
    for (line, text, reason) in [
        (3, "ORIGINATOR=", Value),
        (9, "TIME_SYSTEM=", Value),
        (10, "START_TIME=2000-01-32T00:00:00", Value),
        (11, "STOP_TIME=2000-001T00:00:60", Value),
        (11, "STOP_TIME=1999-365T00:00:00", TimeOrder),
        (11, "STOP_TIMES=2000-001T00:00:00", Keyword),
        (11, "STOP_TIME", Form),
        (11, "\t", Byte),
    ] {
        book.falls(&format!("{text:?} before a degree alone"), degree().put(line, text), reason, line);
        book.falls(&format!("{text:?} before INTERPOLATION alone"), method().put(line, text), reason, line);
    }
    for text in ["x", "W=1", "2000-01-01T00:00:00 1 2 3 4 5 .6", "1999-01-01T00:00:00 1 2 3 4 5 6", "\t"] {
        book.falls(&format!("a degree alone before {text:?}"), degree().put(14, text), Order, 12);
        book.falls(&format!("INTERPOLATION alone before {text:?}"), method().put(14, text), Order, 13);
    }
    book.falls("a degree alone, and no data", degree().drop(14), Order, 12);
    book.falls("INTERPOLATION alone, and no data", method().drop(14), Order, 13);
    book.falls("both, and no data", method().insert(13, DEGREE).drop(15), Short, 15);
    let endings: [(&str, &[u8]); 4] = [("LF", b"\n"), ("CR", b"\r"), ("CR LF", b"\r\n"), ("LF CR", b"\n\r")];
    for (name, ending) in endings {
        book.falls(&format!("a degree alone, lines ended by {name}"), degree().ended(ending), Order, 12);
        book.falls(&format!("INTERPOLATION alone, lines ended by {name}"), method().ended(ending), Order, 13);
        book.stands(&format!("both, lines ended by {name}"), method().insert(13, DEGREE).ended(ending), 21);
    }
}

/// What the message ends with after STOP_TIME, and the answer: the reason at a place from 0, which for SHORT is just past the last.
const ENDS: [(&[&str], Reason, usize); 18] = [
    (&[], Short, 0),
    (&["COMMENT x"], Short, 1),
    (&[METHOD], Short, 1),
    (&["  ", METHOD], Short, 2),
    (&[METHOD, "COMMENT x"], Short, 2),
    (&[METHOD, "  ", "COMMENT"], Short, 3),
    (&[METHOD, DEGREE], Short, 2),
    (&[METHOD, "COMMENT x", DEGREE], Short, 3),
    (&[METHOD, DEGREE, "META_STOP"], Short, 3),
    (&[METHOD, "META_STOP"], Order, 1),
    (&[DEGREE], Order, 0),
    (&["COMMENT x", DEGREE], Order, 1),
    (&[DEGREE, METHOD], Order, 0),
    (&[METHOD, METHOD], Order, 1),
    (&[METHOD, DEGREE, DEGREE], Order, 2),
    (&[METHOD, DATA], Order, 1),
    (&[METHOD, "META_START"], Order, 1),
    (&[WRONG_METHOD], Value, 0),
];

/// The feed's end, with and without a last line ending, and the next heading; the next message is judged on its own.
pub(super) fn ends(book: &mut Book) {
    for Block { name, sheet, stop, .. } in blocks() {
        for (lines, reason, place) in ENDS {
            let sheet = with(&sheet.clone().keep(stop - 1), stop, lines);
            let name = format!("{name}: {lines:?}, and");
            book.falls(&format!("{name} the message ends"), sheet.clone(), reason, stop + place);
            book.falls(&format!("{name} the feed ends without an ending"), sheet.joined(), reason, stop + place);
            let feed = joined_sheets(&[sheet, oem()]);
            book.add(&format!("{name} a heading follows, message 1"), feed.clone(), Ok(2), 1, Want::Refused(reason, stop + place));
            book.add(&format!("{name} a heading follows, message 2"), feed, Ok(2), 2, Want::Accepted { rows: 19, shown: Vec::new() });
        }
    }
}

/// Several messages: what is wrong with one is its own matter.
pub(super) fn messages(book: &mut Book) {
    let method = || with(&oem(), 12, &[METHOD]);
    let degree = || with(&oem(), 12, &[DEGREE]);
    let both = || with(&oem(), 12, &[METHOD, DEGREE]);
    let accepted = |rows| Want::Accepted { rows, shown: Vec::new() };
    let mut of = |name: &str, sheets: &[Sheet], wants: &[Want]| {
        for (message, want) in (1..).zip(wants) {
            book.add(&format!("{name}, message {message}"), joined_sheets(sheets), Ok(sheets.len()), message, want.clone());
        }
    };
    let [at_degree, at_stop] = [Want::Refused(Order, 12), Want::Refused(Order, 13)];
    of("a degree alone, then both", &[degree(), both()], &[at_degree.clone(), accepted(21)]);
    of("INTERPOLATION alone, then both", &[method(), both()], &[at_stop.clone(), accepted(21)]);
    of("a degree alone, then neither", &[degree(), oem()], &[at_degree.clone(), accepted(19)]);
    of("INTERPOLATION alone, then neither", &[method(), oem()], &[at_stop.clone(), accepted(19)]);
    of("INTERPOLATION alone, then a degree alone", &[method(), degree()], &[at_stop.clone(), at_degree.clone()]);
    of("a degree alone, then INTERPOLATION alone", &[degree(), method()], &[at_degree.clone(), at_stop.clone()]);
    of("both, then a degree alone", &[both(), degree()], &[accepted(21), at_degree.clone()]);
    of("both, then INTERPOLATION alone", &[both(), method()], &[accepted(21), at_stop.clone()]);
    of("an OPM, then a degree alone, then both", &[opm(), degree(), both()], &[accepted(20), at_degree.clone(), accepted(21)]);
    of("INTERPOLATION last of all, then a degree alone", &[method().keep(12), degree()], &[Want::Refused(Short, 13), at_degree]);
    // The damaged message has 244 bytes and 23 more, so the rows of the second are 267 bytes on.
    let shown = vec![(0, row([36, 0, 1, 282, 3])), (11, row([42, 1, 12, 483, 7])), (12, row([43, 1, 13, 512, 1]))];
    of("rows after a degree alone", &[degree(), both()], &[Want::Refused(Order, 12), Want::Accepted { rows: 21, shown }]);
}

/// Figure 4-1 of document 002 without some of its lines: the two stand at 15 and 16, and at 39 and 40 or, as printed, at 40 and 41.
pub(super) fn figures(book: &mut Book) {
    let whole = || Sheet::read(include_str!("../../../examples/figure-4-1-whole.oem"));
    let printed = || Sheet::read(include_str!("../../../examples/figure-4-1.oem"));
    book.stands("figure 4-1 whole, as lines", whole(), 88);
    for line in [15, 16, 39, 40] {
        book.falls(&format!("figure 4-1 whole without line {line}"), whole().drop(line), Order, line);
        book.falls(&format!("figure 4-1 whole with line {line} twice"), whole().twice(line), Order, line + 1);
        book.stands(&format!("figure 4-1 whole with a comment before line {line}"), whole().insert(line, "COMMENT"), 89);
    }
    book.stands("figure 4-1 whole without the two lines of segment 1", whole().drop(15).drop(15), 86);
    book.stands("figure 4-1 whole without the two lines of segment 2", whole().drop(39).drop(39), 86);
    book.stands("figure 4-1 whole without all four lines", whole().drop(39).drop(39).drop(15).drop(15), 84);
    book.falls("figure 4-1 whole without lines 15 and 39", whole().drop(39).drop(15), Order, 15);
    book.falls("figure 4-1 whole without lines 16 and 40", whole().drop(40).drop(16), Order, 16);
    book.falls("figure 4-1 whole without lines 15, 16 and 39", whole().drop(39).drop(15).drop(15), Order, 37);
    book.falls("figure 4-1 whole without lines 15, 16 and 40", whole().drop(40).drop(15).drop(15), Order, 38);
    let exchanged = |at: usize| whole().put(at, DEGREE).put(at + 1, METHOD);
    book.falls("figure 4-1 whole with lines 15 and 16 exchanged", exchanged(15), Order, 15);
    book.falls("figure 4-1 whole with lines 39 and 40 exchanged", exchanged(39), Order, 39);
    book.falls("figure 4-1 as printed, without line 15", printed().drop(15), Order, 15);
    book.falls("figure 4-1 as printed, without line 16", printed().drop(16), Order, 16);
    // The first line of omission, at 26, comes before the second segment.
    book.falls("figure 4-1 as printed, without line 40", printed().drop(40), Value, 26);
    book.falls("figure 4-1 as printed, without line 41", printed().drop(41), Value, 26);
    book.falls("figure 4-1 as printed, without lines 15 and 16", printed().drop(15).drop(15), Value, 24);
}

/// The rows of blocks with both lines. META_STOP stands at 202 in the feed in full, and at 328 and 574 in the wide one.
pub(super) fn rows(book: &mut Book) {
    let both = [
        (10, [41, 1, 11, 184, 17]),
        (11, [42, 1, 12, 216, 7]),
        (12, [43, 1, 13, 245, 1]),
        (13, [44, 1, 14, 256, 0]),
        (14, [9, 1, 15, 257, 19]),
        (20, [15, 1, 15, 287, 1]),
    ];
    book.shows("rows of a block with both", with(&oem(), 12, &[METHOD, DEGREE]), 21, &both);
    let loose = ["  INTERPOLATION =  La grange  ", "COMMENT between", "", " INTERPOLATION_DEGREE=  +07 "];
    let shown = [
        (11, [42, 1, 12, 221, 9]),
        (12, [45, 1, 13, 241, 7]),
        (13, [43, 1, 15, 274, 3]),
        (14, [44, 1, 16, 288, 0]),
        (15, [9, 1, 17, 289, 19]),
    ];
    book.shows("rows of a block with both, loosely written", with(&oem(), 12, &loose), 22, &shown);
    let segments = [
        (12, [41, 1, 13, 263, 19]),
        (13, [42, 1, 14, 297, 7]),
        (14, [43, 1, 15, 326, 1]),
        (15, [44, 1, 16, 337, 0]),
        (44, [41, 2, 27, 554, 19]),
        (45, [42, 2, 28, 588, 6]),
        (46, [43, 2, 29, 616, 1]),
        (47, [44, 2, 30, 627, 0]),
        (48, [9, 2, 31, 628, 19]),
    ];
    let two = with(&wide_oem(), 28, &["INTERPOLATION=Linear", "INTERPOLATION_DEGREE=1"]);
    book.shows("rows of two segments with both", two, 62, &segments);
    let shown = [(12, [41, 1, 13, 263, 19]), (13, [44, 1, 14, 292, 0]), (14, [9, 1, 15, 293, 19])];
    book.shows("rows of a block with useable times and neither", wide_oem().drop(14).drop(14), 58, &shown);
}
