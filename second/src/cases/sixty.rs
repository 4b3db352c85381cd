//! Cases about second 60: where it stands, where it doesn't, and what it comes before and after.

use super::{oem, opm, row, wide_oem, wide_opm, Book, Sheet, Want};
use crate::judge::Reason::*;

/// A line with an epoch: the sheet and its rows, the line, the line that names its time system, what stands before and after the epoch,
/// and a day in both forms on which second 60 keeps the order of times.
struct Spot {
    name: &'static str,
    sheet: fn() -> Sheet,
    rows: usize,
    line: usize,
    system: usize,
    before: &'static str,
    after: &'static str,
    days: [&'static str; 2],
}

const fn of_opm(name: &'static str, line: usize, before: &'static str) -> Spot {
    Spot { name, sheet: wide_opm, rows: 41, line, system: 8, before, after: "", days: ["2016-12-31", "2016-366"] }
}

const fn of_oem(name: &'static str, line: usize, system: usize, before: &'static str, days: [&'static str; 2]) -> Spot {
    Spot { name, sheet: wide_oem, rows: 60, line, system, before, after: "", days }
}

const fn of_data(name: &'static str, line: usize, system: usize, days: [&'static str; 2]) -> Spot {
    Spot { name, sheet: wide_oem, rows: 60, line, system, before: "", after: " 1 2 3 4 5 6", days }
}

/// The creation dates, which hang on no time system.
const CREATIONS: [Spot; 2] = [
    of_opm("CREATION_DATE of an OPM", 2, "CREATION_DATE="),
    of_oem("CREATION_DATE of an OEM", 2, 9, "CREATION_DATE=", ["2016-12-31", "2016-366"]),
];

/// Every other epoch.
const SPOTS: [Spot; 14] = [
    of_opm("EPOCH", 9, "EPOCH="),
    of_opm("MAN_EPOCH_IGNITION", 28, "MAN_EPOCH_IGNITION="),
    of_opm("MAN_EPOCH_IGNITION of a second set", 35, "MAN_EPOCH_IGNITION="),
    of_oem("START_TIME", 10, 9, "START_TIME=", ["1999-12-31", "1999-365"]),
    of_oem("USEABLE_START_TIME", 11, 9, "USEABLE_START_TIME=", ["2000-01-01", "2000-001"]),
    of_oem("USEABLE_STOP_TIME", 12, 9, "USEABLE_STOP_TIME=", ["2000-01-02", "2000-002"]),
    of_oem("STOP_TIME", 13, 9, "STOP_TIME=", ["2000-01-04", "2000-004"]),
    of_data("the first data line", 17, 9, ["2000-01-01", "2000-001"]),
    of_data("a data line", 18, 9, ["2000-01-02", "2000-002"]),
    of_data("the last data line", 19, 9, ["2000-01-03", "2000-003"]),
    of_oem("START_TIME of a second segment", 26, 25, "START_TIME=", ["1999-12-31", "1999-365"]),
    of_oem("STOP_TIME of a second segment", 27, 25, "STOP_TIME=", ["2000-01-04", "2000-004"]),
    of_data("the first data line of a second segment", 29, 25, ["2000-01-01", "2000-001"]),
    of_data("the last data line of a second segment", 30, 25, ["2000-01-03", "2000-003"]),
];

/// Second 60 with every kind of fraction.
const CLOCKS: [&str; 7] =
    ["23:59:60", "23:59:60.0", "23:59:60.000000000", "23:59:60.000000001", "23:59:60.5", "23:59:60.99", "23:59:60.999999999"];

/// Second 60 at a wrong clock or with a wrong end, and seconds past it.
const WRONG_CLOCKS: [&str; 23] = [
    "22:59:60", "23:58:60", "00:00:60", "00:59:60", "13:59:60", "23:00:60", "23:09:60", "24:59:60", "23:60:60", "24:00:60", "33:59:60",
    "22:59:60.5", "23:58:60.999999999", "23:59:61", "23:59:62", "23:59:61.5", "23:59:70", "23:59:99", "23:59:60.", "23:59:60.1234567890",
    "23:59:600", "23:59:60Z", "23:59:060",
];

const UTC_SYSTEMS: [&str; 4] = ["UTC", "UTC   ", "   UTC", "      UTC    "];

const OTHER_SYSTEMS: [&str; 22] = [
    "TAI", "GPS", "TT", "UT1", "A", "utc", "Utc", "UTc", "uTC", "UT", "TC", "U", "UTC1", "UTC0", "1UTC", "UTC 1", "U T C", "UTC UTC",
    "UTC.", "UTC=", "=UTC", "[UTC]",
];

impl Spot {
    /// The sheet with this epoch in its line.
    fn with(&self, epoch: &str) -> Sheet {
        (self.sheet)().put(self.line, format!("{}{epoch}{}", self.before, self.after))
    }

    /// The same with another time system over it.
    fn under(&self, system: &str, epoch: &str) -> Sheet {
        self.with(epoch).put(self.system, format!("TIME_SYSTEM={system}"))
    }
}

/// Epochs at second 60 stand under UTC and nowhere else.
pub(super) fn systems(book: &mut Book) {
    for spot in SPOTS {
        let Spot { name, rows, line, .. } = spot;
        for epoch in spot.days.map(|day| format!("{day}T23:59:60")) {
            for system in UTC_SYSTEMS {
                book.stands(&format!("{name} {epoch} under {system:?}"), spot.under(system, &epoch), rows);
            }
            for system in OTHER_SYSTEMS {
                book.falls(&format!("{name} {epoch} under {system:?}"), spot.under(system, &epoch), Value, line);
            }
            // Second 59 is not the system's matter.
            let common = epoch.replace(":60", ":59");
            book.stands(&format!("{name} {common} under TAI"), spot.under("TAI", &common), rows);
        }
    }
    for spot in CREATIONS {
        for epoch in spot.days.map(|day| format!("{day}T23:59:60")) {
            for system in UTC_SYSTEMS.iter().chain(&OTHER_SYSTEMS) {
                book.stands(&format!("{} {epoch} under {system:?}", spot.name), spot.under(system, &epoch), spot.rows);
            }
        }
    }
    book.stands("blanks about a sign and UTC", opm().put(8, "  TIME_SYSTEM  =  UTC  ").put(9, "EPOCH = 2016-12-31T23:59:60 "), 20);
}

/// Second 60 takes a fraction, and comes at 23:59 alone.
pub(super) fn clocks(book: &mut Book) {
    for spot in SPOTS.iter().chain(&CREATIONS) {
        let Spot { name, rows, line, .. } = *spot;
        for day in spot.days {
            for clock in &CLOCKS[1..] {
                book.stands(&format!("{name} {day}T{clock}"), spot.with(&format!("{day}T{clock}")), rows);
            }
            for clock in WRONG_CLOCKS {
                book.falls(&format!("{name} {day}T{clock}"), spot.with(&format!("{day}T{clock}")), Value, line);
            }
        }
    }
    for spot in SPOTS {
        for clock in &CLOCKS[1..] {
            let epoch = format!("{}T{clock}", spot.days[0]);
            book.falls(&format!("{} {epoch} under TAI", spot.name), spot.under("TAI", &epoch), Value, spot.line);
        }
    }
}

/// Second 60 comes on any day that there is, at the end of a month or not.
pub(super) fn days(book: &mut Book) {
    for day in [
        "1972-06-30", "2015-03-17", "2015-076", "2000-02-29", "2000-060", "2000-02-28", "2001-01-01", "2001-001", "0001-01-01", "0001-001",
        "9999-12-31", "9999-365", "2000-366", "1900-02-28",
    ] {
        let epoch = format!("{day}T23:59:60");
        book.stands(&format!("a creation date of {epoch}"), opm().put(2, format!("CREATION_DATE={epoch}")), 20);
        book.stands(&format!("an epoch of {epoch}"), opm().put(9, format!("EPOCH={epoch}")), 20);
        let times = oem().put(10, format!("START_TIME={epoch}")).put(11, format!("STOP_TIME={epoch}"));
        book.stands(&format!("a segment at {epoch} alone"), times.put(13, format!("{epoch} 1 2 3 4 5 6")), 19);
    }
    for day in ["1900-02-29", "2001-366", "2016-367", "2016-000", "0000-12-31", "2016-13-31", "2016-11-31", "2016-12-32", "2016-12-00"] {
        let epoch = format!("{day}T23:59:60");
        book.falls(&format!("a creation date of {epoch}"), oem().put(2, format!("CREATION_DATE={epoch}")), Value, 2);
        book.falls(&format!("an epoch of {epoch}"), opm().put(9, format!("EPOCH={epoch}")), Value, 9);
        book.falls(&format!("a data epoch of {epoch}"), oem().put(13, format!("{epoch} 1 2 3 4 5 6")), Value, 13);
    }
}

const LEAP_DATA: &str = "2000-01-01T23:59:60 1 2 3 4 5 6";

/// The wide OEM with these time systems.
fn segments(first: &str, second: &str) -> Sheet {
    wide_oem().put(9, format!("TIME_SYSTEM={first}")).put(25, format!("TIME_SYSTEM={second}"))
}

/// Every segment has its own time system, and every message.
pub(super) fn own_systems(book: &mut Book) {
    let mut at = |first: &str, second: &str, lines: &[usize], refused: Option<usize>| {
        let sheet = lines.iter().fold(segments(first, second), |sheet, line| sheet.put(*line, LEAP_DATA));
        let name = format!("segments under {first} and {second}, second 60 in lines {lines:?}");
        match refused {
            Some(line) => book.falls(&name, sheet, Value, line),
            None => book.stands(&name, sheet, 60),
        }
    };
    at("UTC", "UTC", &[17, 29], None);
    at("UTC", "TAI", &[17], None);
    at("UTC", "TAI", &[29], Some(29));
    at("UTC", "TAI", &[17, 29], Some(29));
    at("UTC", "utc", &[17, 29], Some(29));
    at("UTC", "UTC1", &[17, 29], Some(29));
    at("TAI", "UTC", &[29], None);
    at("TAI", "UTC", &[17], Some(17));
    at("TAI", "UTC", &[17, 29], Some(17));
    at("TAI", "TAI", &[29], Some(29));
    let start = |sheet: Sheet| sheet.put(26, "START_TIME=1999-365T23:59:60");
    book.stands("START_TIME at second 60 after a segment under TAI", start(segments("TAI", "UTC")), 60);
    book.falls("START_TIME at second 60 under TAI after a segment under UTC", start(segments("UTC", "TAI")), Value, 26);
    let stop = |sheet: Sheet| sheet.put(27, "STOP_TIME=2000-01-04T23:59:60.5");
    book.stands("STOP_TIME at second 60 after a segment under TAI", stop(segments("TAI", "UTC")), 60);
    book.falls("STOP_TIME at second 60 under TAI after a segment under UTC", stop(segments("UTC", "TAI")), Value, 27);
    // A third segment like the second, whose system stands in its line 6 and its first data line in its line 10.
    let third = |system: &str, sheet: Sheet| {
        let lines: Vec<Vec<u8>> = [&sheet.0[..], &sheet.0[19..30]].concat();
        Sheet(lines).put(36, format!("TIME_SYSTEM={system}")).put(40, LEAP_DATA)
    };
    book.stands("second 60 in a third segment under UTC", third("UTC", segments("UTC", "TAI")), 83);
    book.falls("second 60 in a third segment under TAI", third("TAI", segments("TAI", "UTC")), Value, 40);
    own_messages(book);
}

fn own_messages(book: &mut Book) {
    let leap = |system: &str| opm().put(8, format!("TIME_SYSTEM={system}")).put(9, "EPOCH=2016-366T23:59:60").ended(b"\n");
    let accepted = || Want::Accepted { rows: 20, shown: Vec::new() };
    let two = |first: &str, second: &str| [leap(first), leap(second)].concat();
    book.add("messages under UTC and TAI, the first", two("UTC", "TAI"), Ok(2), 1, accepted());
    book.add("messages under UTC and TAI, the second", two("UTC", "TAI"), Ok(2), 2, Want::Refused(Value, 9));
    book.add("messages under TAI and UTC, the first", two("TAI", "UTC"), Ok(2), 1, Want::Refused(Value, 9));
    book.add("messages under TAI and UTC, the second", two("TAI", "UTC"), Ok(2), 2, accepted());
}

/// UTC in other places than the time system's value says nothing.
pub(super) fn elsewhere(book: &mut Book) {
    let tai = || opm().put(8, "TIME_SYSTEM=TAI").put(9, "EPOCH=2016-12-31T23:59:60");
    for (line, text) in [(3, "ORIGINATOR=UTC"), (4, "OBJECT_NAME=UTC"), (5, "OBJECT_ID=UTC"), (6, "CENTER_NAME=UTC"), (7, "REF_FRAME=UTC")]
    {
        book.falls(&format!("{text} under TAI"), tai().put(line, text), Value, 9);
        book.stands(
            &format!("{} under UTC", text.replace("UTC", "TAI")),
            tai().put(8, "TIME_SYSTEM=UTC").put(line, text.replace("UTC", "TAI")),
            20,
        );
    }
    book.falls("UTC in a comment before TAI", tai().insert(8, "COMMENT TIME_SYSTEM = UTC"), Value, 10);
    book.falls("UTC in a comment after TAI", tai().insert(9, "COMMENT TIME_SYSTEM = UTC"), Value, 10);
    book.stands("TAI in a comment after UTC", tai().put(8, "TIME_SYSTEM=UTC").insert(9, "COMMENT TIME_SYSTEM = TAI"), 21);
    book.stands("lines between UTC and its epoch", tai().put(8, "TIME_SYSTEM=UTC").insert(9, "").insert(9, "COMMENT").insert(9, "  "), 21);
    book.falls("UTC in a creation date's own place does not help it", opm().put(2, "CREATION_DATE=UTC"), Value, 2);
}

/// VALUE keeps its place among the reasons.
pub(super) fn reasons(book: &mut Book) {
    let stop = |system: &str| oem().put(9, format!("TIME_SYSTEM={system}")).put(11, "STOP_TIME=1999-365T23:59:60");
    book.falls("a STOP_TIME at second 60 too early under UTC", stop("UTC"), TimeOrder, 11);
    book.falls("a STOP_TIME at second 60 too early under TAI", stop("TAI"), Value, 11);
    let data = |system: &str| oem().put(9, format!("TIME_SYSTEM={system}")).put(13, LEAP_DATA);
    book.falls("a data line at second 60 past STOP_TIME under UTC", data("UTC"), TimeOrder, 13);
    book.falls("a data line at second 60 past STOP_TIME under TAI", data("TAI"), Value, 13);
    book.falls("a wrong number after a right second 60", wide_oem().put(17, "2000-01-01T23:59:60 1 2 3 4 5 .6"), Value, 17);
    book.falls("ORDER before a wrong second 60", wide_oem().put(9, "TIME_SYSTEM=TAI").put(18, LEAP_DATA).insert(18, "COMMENT"), Order, 19);
    book.falls("an EPOCH at second 60 before any time system", opm().insert(8, "EPOCH=2016-12-31T23:59:60"), Order, 8);
    book.falls("a START_TIME at second 60 before its segment's system", wide_oem().insert(25, "START_TIME=1999-365T23:59:60"), Order, 25);
    book.falls("a time system left out before second 60", opm().drop(8).put(8, "EPOCH=2016-12-31T23:59:60"), Order, 8);
    book.falls(
        "a time system without a value before second 60",
        opm().put(8, "TIME_SYSTEM=").put(9, "EPOCH=2016-12-31T23:59:60"),
        Value,
        8,
    );
    book.falls("a time system named twice", opm().insert(9, "TIME_SYSTEM=TAI").put(10, "EPOCH=2016-12-31T23:59:60"), Order, 9);
    book.falls("a unit after second 60", opm().put(9, "EPOCH=2016-12-31T23:59:60 [S]"), Value, 9);
    let long = format!("{:255}", "EPOCH=2016-12-31T23:59:60");
    book.falls("LONG before a wrong second 60", opm().put(8, "TIME_SYSTEM=TAI").put(9, long), Long, 9);
    book.falls("a wrong second 60 before SHORT", opm().put(8, "TIME_SYSTEM=TAI").put(9, "EPOCH=2016-366T23:59:60").keep(9), Value, 9);
    book.falls("a right second 60 and then SHORT", opm().put(9, "EPOCH=2016-366T23:59:60").keep(9), Short, 10);
}

/// Instants about a second 60 from the earliest to the latest; those of one line are the same instant.
const LINE: [&[&str]; 9] = [
    &["2016-12-31T23:59:59", "2016-366T23:59:59.0"],
    &["2016-12-31T23:59:59.999999999", "2016-366T23:59:59.999999999"],
    &["2016-12-31T23:59:60", "2016-366T23:59:60", "2016-12-31T23:59:60.000"],
    &["2016-12-31T23:59:60.000000001", "2016-366T23:59:60.000000001"],
    &["2016-12-31T23:59:60.5", "2016-366T23:59:60.500"],
    &["2016-12-31T23:59:60.999999999", "2016-366T23:59:60.999999999"],
    &["2017-01-01T00:00:00", "2017-001T00:00:00.0"],
    &["2017-01-01T00:00:00.5", "2017-001T00:00:00.5"],
    &["2017-01-01T00:00:01", "2017-001T00:00:01"],
];

/// Before and after everything in the line.
const EARLY: &str = "2016-01-01T00:00:00";
const LATE: &str = "2017-12-31T00:00:00";

/// A writing in the line, with its place in it.
type Placed = (usize, &'static str);

/// Every two writings in the line.
fn pairs() -> Vec<(Placed, Placed)> {
    let all: Vec<Placed> = LINE.iter().enumerate().flat_map(|(at, texts)| texts.iter().map(move |text| (at, *text))).collect();
    all.iter().flat_map(|one| all.iter().map(|other| (*one, *other))).collect()
}

fn spanned(start: &str, stop: &str, data: &str) -> Sheet {
    oem().put(10, format!("START_TIME={start}")).put(11, format!("STOP_TIME={stop}")).put(13, format!("{data} 1 2 3 4 5 6"))
}

/// The order of times about second 60.
pub(super) fn neighbours(book: &mut Book) {
    let mut told = |name: String, sheet: Sheet, rows: usize, sound: bool, line: usize| {
        if sound {
            book.stands(&name, sheet, rows);
        } else {
            book.falls(&name, sheet, TimeOrder, line);
        }
    };
    for ((at, one), (place, other)) in pairs() {
        let two = spanned(EARLY, LATE, one).add(format!("{other} 1 2 3 4 5 6"));
        told(format!("data at {one}, then at {other}"), two, 26, at < place, 14);
        told(format!("START_TIME {one}, data at {other}"), spanned(one, LATE, other), 19, at <= place, 13);
        told(format!("STOP_TIME {one}, data at {other}"), spanned(EARLY, one, other), 19, place <= at, 13);
        told(format!("START_TIME {one}, STOP_TIME {other}, data at the first"), spanned(one, other, one), 19, at <= place, 11);
    }
    useable_times(book);
    let sheet = spanned("2016-366T23:59:59", "2017-001T00:00:00", "2016-12-31T23:59:59.999999999");
    let sheet = ["2016-366T23:59:60", "2016-12-31T23:59:60.5", "2017-01-01T00:00:00"]
        .iter()
        .fold(sheet, |sheet, time| sheet.add(format!("{time} 1 2 3 4 5 6")));
    book.stands("data on both sides of second 60 and in it", sheet, 40);
}

/// The useable times about second 60, one after the other.
fn useable_times(book: &mut Book) {
    let four = |times: [&str; 4]| {
        let [start, useable_start, useable_stop, stop] = times;
        let useable = [format!("USEABLE_START_TIME={useable_start}"), format!("USEABLE_STOP_TIME={useable_stop}")];
        spanned(start, stop, start).insert(11, &useable[0]).insert(12, &useable[1])
    };
    let [last, sixty, half, next] = [1, 2, 4, 6].map(|at| LINE[at][0]);
    book.stands("38 to 41 through second 60", four([last, sixty, half, next]), 21);
    book.stands("38 to 41 at second 60", four([sixty, "2016-366T23:59:60", "2016-12-31T23:59:60.000", sixty]), 21);
    book.falls("39 at second 59 after 38 at second 60", four([sixty, last, half, next]), TimeOrder, 11);
    book.falls("40 at second 60 before 39 in it", four([last, half, sixty, next]), TimeOrder, 12);
    book.falls("40 at second 60 after 39 on the next day", four([last, next, half, next]), TimeOrder, 12);
    book.falls("41 at second 60 after 40 on the next day", four([last, sixty, next, half]), TimeOrder, 13);
    book.falls("41 at second 60 before 40 in it", four([last, sixty, half, sixty]), TimeOrder, 13);
}

/// The rows of epochs at second 60, fraction included.
pub(super) fn rows(book: &mut Book) {
    let sheet = oem().put(2, "CREATION_DATE=2016-12-31T23:59:60").put(10, "START_TIME=2016-366T23:59:60");
    let sheet = sheet.put(11, "STOP_TIME=2017-001T00:00:00").put(13, "2016-366T23:59:60.5 1 2 3 4 5 6");
    let shown = [
        (1, [2, 0, 2, 33, 19]),
        (9, [38, 1, 10, 156, 17]),
        (10, [41, 1, 11, 184, 17]),
        (12, [9, 1, 13, 212, 19]),
        (18, [15, 1, 13, 242, 1]),
    ];
    book.shows("rows of an OEM with second 60", sheet.clone(), 19, &shown);
    let shown = vec![(1, row([2, 0, 2, 33, 19])), (9, row([38, 1, 10, 156, 17]))];
    book.add("the same with no end of its last line", sheet.ended(b"\n")[..243].to_vec(), Ok(1), 1, Want::Accepted { rows: 19, shown });
    book.shows("the row of an EPOCH at second 60", opm().put(9, "EPOCH = 2016-12-31T23:59:60.25 "), 20, &[(8, [9, 0, 9, 142, 22])]);
}
