//! Cases about writing a message: what goes out, down to every byte of the buffer, and what keeps the buffer as it was.

use super::day;
use super::degree::{with, DEGREE, METHOD};
use super::desks::wrong;
use super::{oem, opm, wide_oem, wide_opm, Sheet};
use crate::bytes::Bytes;
use crate::desk::{FINE, NO_ROOM};
use crate::send::{Sending, Sent};

/// One writing, and what must come of it.
#[derive(Clone, Debug)]
pub struct SendCase {
    pub name: String,
    pub sending: Sending,
    pub want: Sent,
}

/// All fixed cases about writing.
pub fn sendings() -> Vec<SendCase> {
    let mut book = SendBook { cases: Vec::new() };
    tight(&mut book);
    figures(&mut book);
    endings(&mut book);
    blank_lines(&mut book);
    lines_of_an_opm(&mut book);
    units(&mut book);
    lines_of_an_oem(&mut book);
    comments(&mut book);
    degrees(&mut book);
    several_messages(&mut book);
    junk_before(&mut book);
    great_messages(&mut book);
    great_buffers(&mut book);
    refusals(&mut book);
    day::sendings(&mut book);
    book.cases
}

/// The cases as they are gathered.
pub(super) struct SendBook {
    cases: Vec<SendCase>,
}

/// A message with what stands before and after it in its feed, and its number.
struct Among<'b> {
    before: &'b [u8],
    own: &'b [u8],
    after: &'b [u8],
    message: u64,
}

/// A buffer of bytes that no output has, so that an untouched byte shows, and each unlike those about it.
fn lent(size: usize) -> Vec<u8> {
    (0..size).map(|at| 128 + (at * 37 % 128) as u8).collect()
}

impl SendBook {
    fn add(&mut self, name: String, feed: &Bytes, message: u64, size: usize, want: Sent) {
        self.cases.push(SendCase { name, sending: Sending { feed: feed.clone(), message, buffer: lent(size) }, want });
    }

    /// A message that goes out as this text, on a buffer of this size.
    pub(super) fn goes_out_into(&mut self, name: &str, feed: &Bytes, message: u64, text: &[u8], size: usize) {
        let buffer = [text, &lent(size)[text.len()..]].concat();
        let want = Sent { reason: FINE, line: 0, length: text.len() as u32, buffer };
        self.add(format!("{name}, into {size} bytes"), feed, message, size, want);
    }

    /// A writing that leaves every byte of a buffer of this size.
    pub(super) fn falls_before(&mut self, name: &str, feed: &Bytes, message: u64, (reason, line): (u32, u32), size: usize) {
        let want = Sent { reason, line, length: 0, buffer: lent(size) };
        self.add(format!("{name}, buffer of {size} bytes"), feed, message, size, want);
    }

    /// A message that goes out as this text if there is room, with buffers of lengths about the one needed.
    fn goes_out(&mut self, name: &str, among: Among, text: &[u8]) {
        let feed: Bytes = [among.before, among.own, among.after].concat().into();
        let needed = text.len();
        let mut sizes = vec![0, 1, needed / 2, needed - 1, needed, needed + 1, needed + 7, among.own.len(), feed.len()];
        sizes.sort_unstable();
        sizes.dedup();
        for size in sizes {
            if size < needed {
                self.falls_before(name, &feed, among.message, (NO_ROOM, 0), size);
            } else {
                self.goes_out_into(name, &feed, among.message, text, size);
            }
        }
    }

    /// The same for a feed of one message and no more.
    fn alone(&mut self, name: &str, feed: impl Into<Vec<u8>>, text: impl AsRef<[u8]>) {
        self.goes_out(name, Among { before: b"", own: &feed.into(), after: b"", message: 1 }, text.as_ref());
    }

    /// A message that is refused, with buffers that have room and buffers that don't.
    fn falls(&mut self, name: &str, feed: &[u8], message: u64, answer: (u32, u32)) {
        self.falls_shared(name, &feed.into(), message, answer);
    }

    fn falls_shared(&mut self, name: &str, feed: &Bytes, message: u64, answer: (u32, u32)) {
        for size in [0, 1, 242, 243, 1_001] {
            self.falls_before(name, feed, message, answer, size);
        }
    }
}

/// Messages that go out as they came, but for the last ending; the feed in full has 244 bytes, so 243 go out.
fn tight(book: &mut SendBook) {
    let sheets =
        [("the feed in full", oem()), ("an OPM", opm()), ("an OEM with all options", wide_oem()), ("an OPM with all options", wide_opm())];
    for (name, sheet) in sheets {
        book.alone(name, sheet.clone(), sheet.joined());
        book.alone(&format!("{name}, last line without an ending"), sheet.joined(), sheet.joined());
    }
    assert_eq!(oem().joined().len(), 243, "document 01's feed has 244 bytes");
}

/// The figures of document 002.
fn figures(book: &mut SendBook) {
    book.alone("figure 3-1", include_bytes!("../../../examples/figure-3-1.opm").to_vec(), FIGURE_3_1);
    book.alone("figure 3-2", include_bytes!("../../../examples/figure-3-2.opm").to_vec(), FIGURE_3_2);
    book.falls("figure 4-1 as printed", include_bytes!("../../../examples/figure-4-1.oem"), 1, (8, 26));
    let whole = include_str!("../../../examples/figure-4-1-whole.oem");
    book.alone("figure 4-1 without its lines of omission", whole.as_bytes(), FIGURE_4_1);
    for line in [15, 16, 39, 40] {
        let feed: Vec<u8> = Sheet::read(whole).drop(line as usize).into();
        book.falls(&format!("figure 4-1 without its lines of omission and line {line}"), &feed, 1, (7, line));
    }
    let pair = include_bytes!("../../../examples/damaged-pair.feed");
    book.falls("damaged pair, first message", pair, 1, (8, 11));
}

const FIGURE_3_1: &str = "\
CCSDS_OPM_VERS=1.0
CREATION_DATE=2001-11-06T09:23:57
ORIGINATOR=JAXA
COMMENT GEOCENTRIC, CARTESIAN, EARTH FIXED
OBJECT_NAME=GODZILLA 5
OBJECT_ID=1998-057A
CENTER_NAME=EARTH
REF_FRAME=ITRF-97
TIME_SYSTEM=UTC
COMMENT OBJECT_ID: 1998-057A
COMMENT $ITIM  = 1998 OCT 09 22:26:18.40000000, $ original launch time 21:58
COMMENT $ITIM  = 1998 OCT 09 22:23:18.40000000, $ reflects -3mn shift 21:55
COMMENT $ITIM  = 1998 OCT 09 22:28:18.40000000, $ reflects +5mn shift 22:00
COMMENT $ITIM  = 1998 OCT 09 22:58:18.40000000, $ reflects+30mn shift 22:30
COMMENT $ITIM  = 1998 OCT 09 23:18:18.40000000, $ reflects+20mn shift 22:50
EPOCH=1996-12-18T14:28:15.1172
X=6503.514000
Y=1239.647000
Z=-717.490000
X_DOT=-0.873160
Y_DOT=8.740420
Z_DOT=-4.191076
MASS=3000.000000
SOLAR_RAD_AREA=18.770000
SOLAR_RAD_COEFF=1.000000
DRAG_AREA=18.770000
DRAG_COEFF=2.500000";

const FIGURE_3_2: &str = "\
CCSDS_OPM_VERS=1.0
CREATION_DATE=2000-06-03T05:33:00.000
ORIGINATOR=GSOC
OBJECT_NAME=EUTELSAT W4
OBJECT_ID=2000-028A
COMMENT Generated by GSOC, R. Kiehling
COMMENT Current intermediate orbit IO2 and maneuver planning data
CENTER_NAME=EARTH
REF_FRAME=TOD
TIME_SYSTEM=UTC
COMMENT State Vector
EPOCH=2006-06-03T00:00:00.000
X=6655.9942
Y=-40218.5751
Z=-82.9177
X_DOT=3.11548208
Y_DOT=0.47042605
Z_DOT=-0.00101495
COMMENT Keplerian elements
SEMI_MAJOR_AXIS=41399.5123
ECCENTRICITY=0.020842611
INCLINATION=0.117746
RA_OF_ASC_NODE=17.604721
ARG_OF_PERICENTER=218.242943
TRUE_ANOMALY=41.922339
GM=398600.4415
COMMENT Spacecraft parameters
MASS=1913.000
SOLAR_RAD_AREA=10.000
SOLAR_RAD_COEFF=1.300
DRAG_AREA=10.000
DRAG_COEFF=2.300
COMMENT 2 planned maneuvers
COMMENT First maneuver: AMF-3
COMMENT Non-impulsive, thrust direction fixed in inertial frame
MAN_EPOCH_IGNITION=2000-06-03T09:00:34.1
MAN_DURATION=132.60
MAN_DELTA_MASS=-18.418
MAN_REF_FRAME=EME2000
MAN_DV_1=-0.02325700
MAN_DV_2=0.01683160
MAN_DV_3=-0.00893444
COMMENT Second maneuver: first station acquisition maneuver
COMMENT impulsive, thrust direction fixed in RTN frame
MAN_EPOCH_IGNITION=2000-06-05T18:59:21.0
MAN_DURATION=0.00
MAN_DELTA_MASS=-1.469
MAN_REF_FRAME=RTN
MAN_DV_1=0.00101500
MAN_DV_2=-0.00187300
MAN_DV_3=0.00000000";

const FIGURE_4_1: &str = "\
CCSDS_OEM_VERS=1.0
CREATION_DATE=1996-11-04T17:22:31
ORIGINATOR=NASA/JPL
META_START
OBJECT_NAME=Mars Global Surveyor
OBJECT_ID=1996-062A
CENTER_NAME=Mars Barycenter
REF_FRAME=EME2000
TIME_SYSTEM=UTC
START_TIME=1996-12-18T12:00:00.331
USEABLE_START_TIME=1996-12-18T12:10:00.331
USEABLE_STOP_TIME=1996-12-28T21:23:00.331
STOP_TIME=1996-12-28T21:28:00.331
INTERPOLATION=Hermite
INTERPOLATION_DEGREE=7
META_STOP
COMMENT This file was produced by M.R. Somebody, MSOO NAV/JPL, 2000 OCT 11. It is
COMMENT to be used for DSN scheduling purposes only.
1996-12-18T12:00:00.331 2789.619 -280.045 -1746.755 4.73372 -2.49586 -1.04195
1996-12-18T12:01:00.331 2783.419 -308.143 -1877.071 5.18604 -2.42124 -1.99608
1996-12-18T12:02:00.331 2776.033 -336.859 -2008.682 5.63678 -2.33951 -1.94687
1996-12-28T21:28:00.331 -3881.024 563.959 -682.773 -3.28827 -3.66735 1.63861
META_START
OBJECT_NAME=Mars Global Surveyor
OBJECT_ID=1996-062A
CENTER_NAME=Mars Barycenter
REF_FRAME=EME2000
TIME_SYSTEM=UTC
START_TIME=1996-12-28T21:29:07.267
USEABLE_START_TIME=1996-12-28T22:08:02.5
USEABLE_STOP_TIME=1996-12-30T01:18:02.5
STOP_TIME=1996-12-30T01:28:02.267
INTERPOLATION=Hermite
INTERPOLATION_DEGREE=7
META_STOP
COMMENT This block begins after trajectory correction maneuver TCM-3.
1996-12-28T21:29:07.267 -2432.166 -063.042 1742.754 7.33702 -3.495867 -1.041945
1996-12-28T21:59:02.267 -2445.234 -878.141 1873.073 1.86043 -3.421256 -0.996366
1996-12-28T22:00:02.267 -2458.079 -683.858 2007.684 6.36786 -3.339563 -0.946654
1996-12-30T01:28:02.267 2164.375 1115.811 -688.131 -3.53328 -2.88452 0.88535";

/// Whatever ends a line, one LF parts it from the next, and none stands after the last.
fn endings(book: &mut SendBook) {
    let names: [(&str, &[u8]); 4] = [("LF", b"\n"), ("CR", b"\r"), ("CR LF", b"\r\n"), ("LF CR", b"\n\r")];
    for (name, ending) in names {
        for (kind, sheet) in [("OPM", wide_opm()), ("OEM", wide_oem())] {
            book.alone(&format!("{kind} with every line ended by {name}"), sheet.ended(ending), sheet.joined());
            book.alone(&format!("{kind} with lines parted by {name}"), sheet.0.join(ending), sheet.joined());
        }
    }
    for (name, run) in
        [("LF LF", &b"\n\n"[..]), ("CR CR", b"\r\r"), ("LF CR CR LF", b"\n\r\r\n"), ("CR LF CR", b"\r\n\r"), ("LF blank CR", b"\n \r")]
    {
        book.alone(&format!("every line ended by {name}"), oem().ended(run), oem().joined());
    }
    book.alone("endings in turn", wide_oem().ended_in_turn(&[b"\n", b"\r", b"\r\n", b"\n\r"]), wide_oem().joined());
}

/// A blank line goes out nowhere, whatever its length and place.
fn blank_lines(book: &mut SendBook) {
    for blank in ["", " ", "          "] {
        for line in 2..=14 {
            let name = format!("{} blanks as line {line} of an OEM", blank.len());
            book.alone(&name, oem().insert(line, blank), oem().joined());
        }
        book.alone(&format!("{} blanks before the last ending of an OPM", blank.len()), opm().add(blank), opm().joined());
    }
    let wide = |sheet: Sheet| Sheet(sheet.0.into_iter().flat_map(|line| [line, vec![b' '; 254], Vec::new()]).collect());
    book.alone("two blank lines after every line of an OPM", wide(wide_opm()), wide_opm().joined());
    book.alone("two blank lines after every line of an OEM", wide(wide_oem()), wide_oem().joined());
    book.alone("blanks after the last ending", [oem().ended(b"\n"), b"   ".to_vec()].concat(), oem().joined());
    book.alone("endings after the last ending", [oem().ended(b"\n"), b"\n\r\n\n\r".to_vec()].concat(), oem().joined());
}

/// Each line of a wide sheet as it comes and as it goes out.
fn lines_of(book: &mut SendBook, sheet: fn() -> Sheet, lines: &[(usize, &str, &str)]) {
    for (line, comes, goes) in lines {
        book.alone(&format!("line {line}, {comes:?}"), sheet().put(*line, comes), sheet().put(*line, goes).joined());
    }
}

fn lines_of_an_opm(book: &mut SendBook) {
    lines_of(
        book,
        wide_opm,
        &[
            (1, "  CCSDS_OPM_VERS   =   1.0  ", "CCSDS_OPM_VERS=1.0"),
            (1, "CCSDS_OPM_VERS =1.0", "CCSDS_OPM_VERS=1.0"),
            (2, " CREATION_DATE =  2016-12-31T23:59:60 ", "CREATION_DATE=2016-12-31T23:59:60"),
            (2, "CREATION_DATE= 2016-366T23:59:60.000", "CREATION_DATE=2016-366T23:59:60.000"),
            (3, "ORIGINATOR =  A  B ", "ORIGINATOR=A  B"),
            (4, "OBJECT_NAME==", "OBJECT_NAME=="),
            (4, "OBJECT_NAME =  = = ", "OBJECT_NAME== ="),
            (4, "OBJECT_NAME = 5 [KM]", "OBJECT_NAME=5 [KM]"),
            (4, "OBJECT_NAME =  5   [KM] ", "OBJECT_NAME=5   [KM]"),
            (4, "OBJECT_NAME = COMMENT", "OBJECT_NAME=COMMENT"),
            (4, "OBJECT_NAME = META_START", "OBJECT_NAME=META_START"),
            (4, "OBJECT_NAME = CCSDS_OPM_VERS = 1.0", "OBJECT_NAME=CCSDS_OPM_VERS = 1.0"),
            (4, "OBJECT_NAME = OBJECT_NAME", "OBJECT_NAME=OBJECT_NAME"),
            (7, "REF_FRAME = [KM]", "REF_FRAME=[KM]"),
            (8, "TIME_SYSTEM =     UTC", "TIME_SYSTEM=UTC"),
            (9, "EPOCH = 2000-001T23:59:60.5", "EPOCH=2000-001T23:59:60.5"),
            (9, "EPOCH   =2000-060T00:00:00.000000000", "EPOCH=2000-060T00:00:00.000000000"),
            (10, "X = 1 [KM]", "X=1"),
            (10, "X = +1.50", "X=+1.50"),
            (10, "X =-1.5e-003  [KM]  ", "X=-1.5e-003"),
            (10, "  X= 0000000000000000", "X=0000000000000000"),
            (17, "ECCENTRICITY =   0.5   ", "ECCENTRICITY=0.5"),
            (28, "MAN_EPOCH_IGNITION = 2000-01-01T23:59:60", "MAN_EPOCH_IGNITION=2000-01-01T23:59:60"),
            (31, "MAN_REF_FRAME = R T  N [KM/S]", "MAN_REF_FRAME=R T  N [KM/S]"),
            (41, " MAN_DV_3 = 5    [KM/S]   ", "MAN_DV_3=5"),
        ],
    );
    let wide = format!("OBJECT_NAME={}", "B".repeat(242));
    book.alone("a text of 242 bytes", opm().put(4, &wide), opm().put(4, &wide).joined());
    book.alone("a unit at the end of 254 bytes", opm().put(10, format!("{:250}[KM]", "X=1")), opm().joined());
    book.alone("a number at the end of 254 bytes", opm().put(10, format!("X={:>252}", "1")), opm().joined());
    let spread = |line: &Vec<u8>| format!("   {}   ", String::from_utf8_lossy(line).replace('=', "   =   ")).into_bytes();
    book.alone("blanks about every word of an OPM", Sheet(wide_opm().0.iter().map(spread).collect()), wide_opm().joined());
}

/// What each keyword with a unit begins its line with, and the unit.
const UNITS: [(&str, &str); 21] = [
    ("X=", " [KM]"),
    ("Y=", " [KM]"),
    ("Z=", " [KM]"),
    ("X_DOT=", " [KM/S]"),
    ("Y_DOT=", " [KM/S]"),
    ("Z_DOT=", " [KM/S]"),
    ("SEMI_MAJOR_AXIS=", " [KM]"),
    ("INCLINATION=", " [DEG]"),
    ("RA_OF_ASC_NODE=", " [DEG]"),
    ("ARG_OF_PERICENTER=", " [DEG]"),
    ("TRUE_ANOMALY=", " [DEG]"),
    ("MEAN_ANOMALY=", " [DEG]"),
    ("GM=", " [KM**3/S**2]"),
    ("MASS=", " [KG]"),
    ("SOLAR_RAD_AREA=", " [M**2]"),
    ("DRAG_AREA=", " [M**2]"),
    ("MAN_DURATION=", " [S]"),
    ("MAN_DELTA_MASS=", " [KG]"),
    ("MAN_DV_1=", " [KM/S]"),
    ("MAN_DV_2=", " [KM/S]"),
    ("MAN_DV_3=", " [KM/S]"),
];

/// Every unit is left out, whatever stands between it and its number.
fn units(book: &mut SendBook) {
    let with = |line: &[u8], blanks: &str| {
        let unit = UNITS.iter().find(|(word, _)| line.starts_with(word.as_bytes())).map_or("", |(_, unit)| unit);
        [line, if unit.is_empty() { b"" } else { blanks.as_bytes() }, unit.as_bytes()].concat()
    };
    let mean = wide_opm().put(21, "MEAN_ANOMALY=6");
    for sheet in [wide_opm(), mean] {
        let name = String::from_utf8_lossy(&sheet.0[20]).into_owned();
        for blanks in ["", "      "] {
            let all = Sheet(sheet.0.iter().map(|line| with(line, blanks)).collect());
            book.alone(&format!("every unit, {} blanks more, {name}", blanks.len()), all, sheet.joined());
        }
        for line in 1..=41 {
            let one = sheet.clone().put(line, with(&sheet.0[line - 1], ""));
            if one.0 != sheet.0 {
                book.alone(&format!("the unit of line {line}, {name}"), one, sheet.joined());
            }
        }
    }
}

fn lines_of_an_oem(book: &mut SendBook) {
    lines_of(
        book,
        wide_oem,
        &[
            (1, " CCSDS_OEM_VERS = 1.0 ", "CCSDS_OEM_VERS=1.0"),
            (2, "CREATION_DATE = 2015-06-30T23:59:60.25", "CREATION_DATE=2015-06-30T23:59:60.25"),
            (4, "   META_START  ", "META_START"),
            (4, "META_START ", "META_START"),
            (16, " META_STOP", "META_STOP"),
            (20, "          META_START", "META_START"),
            (28, "META_STOP                    ", "META_STOP"),
            (5, "OBJECT_NAME = 1 2 3 4 5 6 7", "OBJECT_NAME=1 2 3 4 5 6 7"),
            (9, "TIME_SYSTEM= TAI=UTC ", "TIME_SYSTEM=TAI=UTC"),
            (10, "START_TIME = 2000-001T00:00:00.0", "START_TIME=2000-001T00:00:00.0"),
            (12, "USEABLE_STOP_TIME = 2000-01-02T23:59:60", "USEABLE_STOP_TIME=2000-01-02T23:59:60"),
            (14, "INTERPOLATION =  La  grange 7 [KM] ", "INTERPOLATION=La  grange 7 [KM]"),
            (15, "INTERPOLATION_DEGREE =   +00000000000000007  ", "INTERPOLATION_DEGREE=+00000000000000007"),
            (15, "INTERPOLATION_DEGREE =-2147483648", "INTERPOLATION_DEGREE=-2147483648"),
            (17, "  2000-01-01T00:00:00   1  2    3 4  5      6  ", "2000-01-01T00:00:00 1 2 3 4 5 6"),
            (17, " 2000-01-01T00:00:00 1 2 3 4 5 6", "2000-01-01T00:00:00 1 2 3 4 5 6"),
            (17, "2000-01-01T00:00:00 1 2 3 4 5 6 ", "2000-01-01T00:00:00 1 2 3 4 5 6"),
            (18, "2000-002T00:00:00.000000000  +1.0 -2.5E-001 3.0e9 0004 5 6", "2000-002T00:00:00.000000000 +1.0 -2.5E-001 3.0e9 0004 5 6"),
            (19, "2000-003T23:59:60.5  1 2 3 4 5 6", "2000-003T23:59:60.5 1 2 3 4 5 6"),
            (30, "2000-01-02T00:00:00 1 2 3 4 5                     6", "2000-01-02T00:00:00 1 2 3 4 5 6"),
        ],
    );
    book.alone("META_START after 244 blanks", oem().put(4, format!("{:>254}", "META_START")), oem().joined());
    book.alone("META_STOP before 245 blanks", oem().put(12, format!("{:254}", "META_STOP")), oem().joined());
    let data = format!("2000-01-01T00:00:00{:>225} 2 3 4 5 6", "1");
    book.alone("a data line of 254 bytes", oem().put(13, data), oem().joined());
    let apart = |line: &Vec<u8>| format!("   {}   ", String::from_utf8_lossy(line).replace('=', "   =   ").replace(' ', "  ")).into_bytes();
    book.alone("blanks about every word of an OEM", Sheet(wide_oem().0.iter().map(apart).collect()), wide_oem().joined());
}

/// A comment as it comes and as it goes out.
const COMMENTS: [(&str, &str); 21] = [
    ("COMMENT", "COMMENT"),
    ("COMMENT ", "COMMENT"),
    ("   COMMENT     ", "COMMENT"),
    ("COMMENT x", "COMMENT x"),
    ("COMMENT     x", "COMMENT x"),
    ("COMMENT x     ", "COMMENT x"),
    ("  COMMENT   a  b   c  ", "COMMENT a  b   c"),
    ("COMMENT =", "COMMENT ="),
    ("COMMENT  = ", "COMMENT ="),
    ("COMMENT =x", "COMMENT =x"),
    (" COMMENT a=b = c", "COMMENT a=b = c"),
    ("COMMENT $ITIM  = 1998 OCT 09", "COMMENT $ITIM  = 1998 OCT 09"),
    ("COMMENT COMMENT", "COMMENT COMMENT"),
    ("COMMENT   COMMENT   x", "COMMENT COMMENT   x"),
    ("COMMENT  META_START", "COMMENT META_START"),
    ("COMMENT  META_STOP ", "COMMENT META_STOP"),
    ("COMMENT   CCSDS_OEM_VERS = 1.0", "COMMENT CCSDS_OEM_VERS = 1.0"),
    ("COMMENT   CCSDS_OPM_VERS=1.0", "COMMENT CCSDS_OPM_VERS=1.0"),
    ("COMMENT X = 1   [KM]", "COMMENT X = 1   [KM]"),
    ("COMMENT  1  2 3 4 5 6", "COMMENT 1  2 3 4 5 6"),
    ("COMMENT ~", "COMMENT ~"),
];

fn comments(book: &mut SendBook) {
    for (comes, goes) in COMMENTS {
        book.alone(&format!("{comes:?} in an OPM"), opm().insert(6, comes), opm().insert(6, goes).joined());
        book.alone(&format!("{comes:?} in an OEM"), oem().insert(13, comes), oem().insert(13, goes).joined());
        book.alone(&format!("{comes:?} at the end"), wide_oem().add(comes).joined(), wide_oem().add(goes).joined());
    }
    for line in 2..=21 {
        book.alone(&format!("two comments from line {line} of an OPM"), twice(opm(), line, TWO), twice(opm(), line, TWO_OUT).joined());
    }
    for line in 2..=14 {
        book.alone(&format!("two comments from line {line} of an OEM"), twice(oem(), line, TWO), twice(oem(), line, TWO_OUT).joined());
    }
    let wide = format!("COMMENT {}", "x".repeat(246));
    book.alone("a comment of 254 bytes", opm().add(&wide), opm().add(&wide).joined());
    book.alone("an empty comment of 254 bytes", opm().add(format!("{:254}", "COMMENT")), opm().add("COMMENT").joined());
    book.alone("a comment's last byte after 246 blanks", opm().add(format!("COMMENT{:>247}", "x")), opm().add("COMMENT x").joined());
    book.alone("COMMENT after 247 blanks", opm().add(format!("{:>254}", "COMMENT")), opm().add("COMMENT").joined());
}

const TWO: [&str; 2] = ["COMMENT  ", " COMMENT   a = b "];
const TWO_OUT: [&str; 2] = ["COMMENT", "COMMENT a = b"];

fn twice(sheet: Sheet, line: usize, comments: [&str; 2]) -> Sheet {
    sheet.insert(line, comments[1]).insert(line, comments[0])
}

/// INTERPOLATION and its degree go out together, in every segment that has them; one alone keeps the buffer.
fn degrees(book: &mut SendBook) {
    for (name, sheet, stop) in [("the only segment", oem(), 12), ("a second segment", wide_oem(), 28)] {
        let both = with(&sheet, stop, &[METHOD, DEGREE]).joined();
        let commented = with(&sheet, stop, &["COMMENT", METHOD, "COMMENT x", DEGREE, "COMMENT y"]).joined();
        for lines in [
            &[METHOD, DEGREE][..],
            &["  INTERPOLATION   =  Hermite ", " INTERPOLATION_DEGREE =    7   "],
            &["", METHOD, "   ", "", DEGREE, " "],
        ] {
            book.alone(&format!("{lines:?} in {name}"), with(&sheet, stop, lines), &both);
        }
        let lines = [" COMMENT ", METHOD, "COMMENT    x", "", "INTERPOLATION_DEGREE= 7", "COMMENT y "];
        book.alone(&format!("{lines:?} in {name}"), with(&sheet, stop, &lines), &commented);
        for (lines, place) in [
            (&[DEGREE][..], 0),
            (&[METHOD], 1),
            (&["COMMENT x", DEGREE], 1),
            (&[METHOD, "COMMENT x", ""], 3),
            (&[DEGREE, METHOD], 0),
            (&[METHOD, METHOD, DEGREE], 1),
            (&[METHOD, DEGREE, DEGREE], 2),
        ] {
            let feed: Vec<u8> = with(&sheet, stop, lines).into();
            book.falls(&format!("{lines:?} in {name}"), &feed, 1, (7, (stop + place) as u32));
        }
        for (lines, answer, place) in [(&[METHOD][..], 11, 1), (&[METHOD, DEGREE], 11, 2), (&[DEGREE], 7, 0)] {
            let feed: Vec<u8> = with(&sheet.clone().keep(stop - 1), stop, lines).into();
            book.falls(&format!("{lines:?} last of all in {name}"), &feed, 1, (answer, (stop + place) as u32));
        }
    }
    book.alone("neither line in two segments", wide_oem().drop(14).drop(14), wide_oem().drop(14).drop(14).joined());
    degrees_of_neighbours(book);
}

/// A message with one of the two lines alone spoils no other, and is helped by none.
fn degrees_of_neighbours(book: &mut SendBook) {
    let right = with(&oem(), 12, &[METHOD, DEGREE]);
    let (own, out) = (right.ended(b"\n"), right.joined());
    for (name, alone, line) in [("a degree", DEGREE, 12), ("INTERPOLATION", METHOD, 13)] {
        let wrong: Vec<u8> = with(&oem(), 12, &[alone]).into();
        book.goes_out(&format!("both lines after {name} alone"), Among { before: &wrong, own: &own, after: b"", message: 2 }, &out);
        book.goes_out(&format!("both lines before {name} alone"), Among { before: b"", own: &own, after: &wrong, message: 1 }, &out);
        book.falls(&format!("{name} alone before both lines"), &[&wrong[..], &own].concat(), 1, (7, line));
        book.falls(&format!("{name} alone after both lines"), &[&own[..], &wrong].concat(), 2, (7, line));
    }
}

/// A message goes out without what stands before its heading, and without the next heading.
fn several_messages(book: &mut SendBook) {
    let loose = |sheet: Sheet| Sheet(sheet.0.iter().map(|line| [b" ", &line[..], b"  "].concat()).collect()).ended(b"\r\n");
    let (first, second, third) = (loose(oem()), loose(opm()), loose(wide_oem()));
    let of_three = |book: &mut SendBook, gap: &[u8], out: &str| {
        let [one, two] = [[&first[..], gap].concat(), [&second[..], gap].concat()];
        let name = |number| format!("message {number} of three, parted by {:?}", String::from_utf8_lossy(gap));
        let with_gap = |sheet: Sheet| [sheet.joined(), out.as_bytes().to_vec()].concat();
        let rest = [&two[..], &third].concat();
        book.goes_out(&name(1), Among { before: b"", own: &one, after: &rest, message: 1 }, &with_gap(oem()));
        book.goes_out(&name(2), Among { before: &one, own: &two, after: &third, message: 2 }, &with_gap(opm()));
        let front = [&one[..], &two].concat();
        book.goes_out(&name(3), Among { before: &front, own: &third, after: b"", message: 3 }, &wide_oem().joined());
        for message in [0, 4, u64::MAX] {
            book.falls(&name(message), &[&front[..], &third].concat(), message, (2, 0));
        }
    };
    of_three(book, b"", "");
    of_three(book, b"\n\n   \r", "");
    of_three(book, b"COMMENT\n", "\nCOMMENT");
    of_three(book, b" COMMENT  x = 1  \n\n", "\nCOMMENT x = 1");
    wrong_neighbours(book);
}

/// A wrong message spoils no other, not even by a heading line that is wrong itself.
fn wrong_neighbours(book: &mut SendBook) {
    let (right, short): (Vec<u8>, Vec<u8>) = (oem().into(), oem().drop(13).into());
    let heading = format!("{:300}\n", "CCSDS_OEM_VERS=1.0").into_bytes();
    let out = oem().joined();
    book.goes_out("a right message after a short one", Among { before: &short, own: &right, after: b"", message: 2 }, &out);
    book.goes_out("a right message before a short one", Among { before: b"", own: &right, after: &short, message: 1 }, &out);
    book.goes_out("a right message before a long heading", Among { before: b"", own: &right, after: &heading, message: 1 }, &out);
    book.falls("a short message before a right one", &[&short[..], &right].concat(), 1, (11, 13));
    book.falls("a short message after a right one", &[&right[..], &short].concat(), 2, (11, 13));
    book.falls("a long heading after a right message", &[&right[..], &heading].concat(), 2, (3, 1));
}

/// Lines before the first heading go out nowhere.
fn junk_before(book: &mut SendBook) {
    let every_byte: Vec<u8> = (0..=255).chain([b'\n']).collect();
    let long = [&[b'x'; 999][..], b"\r"].concat();
    let right: Vec<u8> = oem().into();
    for (name, before) in [
        ("every byte", &every_byte[..]),
        ("a long line", &long),
        ("blank lines", b"\n\r\n \n"),
        ("a comment", b"COMMENT x\n"),
        ("nearly a heading", b"CCSDS_OPM_VERS\n"),
    ] {
        book.goes_out(&format!("{name} before the heading"), Among { before, own: &right, after: b"", message: 1 }, &oem().joined());
    }
}

/// Messages about as long as a feed could be before request (vi): 243 bytes, 256 comments of 255 with their LF, and 12 for the last one.
fn great_messages(book: &mut SendBook) {
    let comments = format!("\nCOMMENT {}", "y".repeat(246)).repeat(256);
    let whole = [oem().joined(), comments.into_bytes(), b"\nCOMMENT xyz".to_vec()].concat();
    assert_eq!(whole.len(), 65_535, "the limit before");
    book.alone("a message of 65,535 bytes", whole.clone(), &whole);
    let less = &whole[..65_534];
    book.alone("a message of 65,534 bytes with a last ending", [less, b"\n"].concat(), less);
    book.alone("a message of 65,535 bytes with a last ending", [&whole[..], b"\n"].concat(), &whole);
    let more = [&whole[..], b"zz"].concat();
    book.alone("a message of 65,537 bytes", more.clone(), more);
    let blank = [oem().ended(b"\n"), vec![b'\n'; 65_291]].concat();
    book.alone("65,535 bytes, most of them LF", blank.clone(), oem().joined());
    book.alone("65,537 bytes, most of them LF", [&blank[..], b"\n\n"].concat(), oem().joined());
    let data = |between: &str| -> String {
        let line = |at| format!("2000-001T00:{:02}:{:02}{between}1 2 3 4 5{between}6", at / 60, at % 60);
        (0..3_000).map(line).collect::<Vec<_>>().join("\n")
    };
    let head = oem().put(11, "STOP_TIME=2000-002T00:00:00").drop(13);
    book.alone("3,000 data lines", [head.ended(b"\n"), data("  ").into_bytes()].concat(), head.add(data(" ")).joined());
}

/// Buffers whose length is small in 16 bits, or in 24.
fn great_buffers(book: &mut SendBook) {
    for size in [65_535, 65_536, 65_537, 65_636, 131_072, 131_314, 150_001, 16_777_459] {
        book.goes_out_into("the feed in full", &oem().into(), 1, &oem().joined(), size);
    }
}

/// The judge's refusals come before NO_ROOM and leave the buffer, whether there is room or not.
fn refusals(book: &mut SendBook) {
    for (reason, line, feed) in wrong() {
        book.falls(&format!("{} at {line}", reason.name()), &feed, 1, (reason.number(), line));
    }
    let full: Vec<u8> = oem().into();
    let long = Bytes::padded(oem(), 16_777_216, b'\n');
    for message in [0, 2, 3, 65_536, 65_537, 4_294_967_296, 4_294_967_297, 1 << 63, (1 << 63) + 1, u64::MAX] {
        book.falls(&format!("message {message} of one"), &full, message, (2, 0));
    }
    for message in [0, 1, u64::MAX] {
        book.falls(&format!("empty feed, message {message}"), b"", message, (2, 0));
        book.falls_shared(&format!("feed long, message {message}"), &long, message, (1, 0));
    }
}
