//! Cases about the order of keywords, which reason comes first, and the rows' groups.

use super::{oem, opm, wide_oem, wide_opm, Book};
use crate::judge::Reason::*;

pub(super) fn opm_order(book: &mut Book) {
    book.stands("an OPM with nothing optional", opm(), 20);
    book.stands("an OPM with everything", wide_opm(), 41);
    book.stands("an OPM with MEAN_ANOMALY", wide_opm().put(21, "MEAN_ANOMALY=6"), 41);
    for line in 2..=41 {
        book.falls(&format!("line {line} of an OPM twice"), wide_opm().twice(line), Order, line + 1);
    }
    for line in 2..=40 {
        book.falls(&format!("line {line} of an OPM left out"), wide_opm().drop(line), Order, line);
    }
    book.falls("the last line of an OPM left out", wide_opm().drop(41), Short, 41);
    for lines in 1..=40 {
        let name = format!("an OPM ends after {lines} lines");
        match lines {
            // The craft's five are there, or a whole set.
            27 | 34 => book.stands(&name, wide_opm().keep(lines), lines),
            _ => book.falls(&name, wide_opm().keep(lines), Short, lines + 1),
        }
    }
    book.falls("both anomalies", wide_opm().insert(22, "MEAN_ANOMALY=6"), Order, 22);
    book.falls("both anomalies, the mean one first", wide_opm().insert(21, "MEAN_ANOMALY=6"), Order, 22);
    book.falls("Keplerian elements begun and left", opm().insert(16, "SEMI_MAJOR_AXIS=1"), Order, 17);
    book.falls("Keplerian elements without the first", opm().insert(16, "ECCENTRICITY=1"), Order, 16);
    book.falls("Keplerian elements after MASS", opm().insert(17, "SEMI_MAJOR_AXIS=1"), Order, 17);
    book.falls("Keplerian elements at the end", opm().add("SEMI_MAJOR_AXIS=1"), Order, 21);
    book.falls("GM alone", opm().insert(16, "GM=1"), Order, 16);
    book.falls("a set before MASS", opm().insert(16, "MAN_EPOCH_IGNITION=2000-001T00:00:00"), Order, 16);
    book.falls("MASS after a set", wide_opm().insert(35, "MASS=1"), Order, 35);
    book.falls("a set begun with MAN_DURATION", opm().add("MAN_DURATION=1"), Order, 21);
    book.falls("a set begun within a set", wide_opm().insert(30, "MAN_EPOCH_IGNITION=2000-001T00:00:00"), Order, 30);
    book.falls("a set begun at the end", opm().add("MAN_EPOCH_IGNITION=2000-001T00:00:00"), Short, 22);
    book.falls("EPOCH too early", opm().insert(4, "EPOCH=2000-001T00:00:00"), Order, 4);
    book.falls("X and Y exchanged", opm().put(10, "Y=2").put(11, "X=1"), Order, 10);
    book.falls("CREATION_DATE at the end", opm().add("CREATION_DATE=2000-001T00:00:00"), Order, 21);
}

pub(super) fn oem_order(book: &mut Book) {
    book.stands("an OEM of two segments", wide_oem(), 60);
    for line in 2..=12 {
        book.falls(&format!("line {line} of an OEM twice"), oem().twice(line), Order, line + 1);
        book.falls(&format!("line {line} of an OEM left out"), oem().drop(line), Order, line);
    }
    for lines in 1..=29 {
        let name = format!("an OEM ends after {lines} lines");
        match lines {
            17 => book.stands(&name, wide_oem().keep(lines), 23),
            18 => book.stands(&name, wide_oem().keep(lines), 30),
            19 => book.stands(&name, wide_oem().keep(lines), 37),
            29 => book.stands(&name, wide_oem().keep(lines), 53),
            _ => book.falls(&name, wide_oem().keep(lines), Short, lines + 1),
        }
    }
    for line in [11, 12] {
        book.stands(&format!("an OEM without its optional line {line}"), wide_oem().drop(line), 59);
    }
    book.falls("an OEM with a degree and no INTERPOLATION", wide_oem().drop(14), Order, 14);
    book.falls("an OEM with INTERPOLATION and no degree", wide_oem().drop(15), Order, 15);
    for line in [10, 13, 16, 27, 28] {
        book.falls(&format!("an OEM without its obligatory line {line}"), wide_oem().drop(line), Order, line);
    }
    for line in [11, 12, 14, 15] {
        book.falls(&format!("the optional line {line} of an OEM twice"), wide_oem().twice(line), Order, line + 1);
    }
    book.stands("an OEM without both useable times", wide_oem().drop(11).drop(11), 58);
    book.stands("an OEM without interpolation", wide_oem().drop(14).drop(14), 58);
    book.falls(
        "the useable times exchanged",
        wide_oem().put(11, "USEABLE_STOP_TIME=2000-01-02T00:00:00").put(12, "USEABLE_START_TIME=2000-01-03T00:00:00"),
        Order,
        12,
    );
    book.falls("a degree before its method", wide_oem().put(14, "INTERPOLATION_DEGREE=7").put(15, "INTERPOLATION=Hermite"), Order, 14);
    book.falls("a useable time after STOP_TIME", oem().insert(12, "USEABLE_STOP_TIME=2000-001T00:00:00"), Order, 12);
    book.falls("a useable time before START_TIME", oem().insert(10, "USEABLE_START_TIME=2000-001T00:00:00"), Order, 10);
    book.falls("interpolation before STOP_TIME", oem().insert(11, "INTERPOLATION=x"), Order, 11);
    book.falls(
        "STOP_TIME before START_TIME",
        oem().put(10, "STOP_TIME=2000-001T00:00:00").put(11, "START_TIME=2000-001T00:00:00"),
        Order,
        10,
    );
    book.falls("OBJECT_NAME before META_START", oem().insert(4, "OBJECT_NAME=B"), Order, 4);
    book.falls("an assignment after data", oem().add("OBJECT_NAME=B"), Order, 14);
    book.falls("a STOP_TIME after data does not reach back", oem().add("STOP_TIME=1990-001T00:00:00"), Order, 14);
    book.falls("a START_TIME after data does not reach back", oem().add("START_TIME=2010-001T00:00:00"), Order, 14);
    book.falls("a USEABLE_STOP_TIME after data does not reach back", oem().add("USEABLE_STOP_TIME=1990-001T00:00:00"), Order, 14);
    book.falls("ORIGINATOR after data", oem().add("ORIGINATOR=B"), Order, 14);
    book.falls("a data line before META_STOP", oem().insert(12, "2000-01-01T00:00:00 1 2 3 4 5 6"), Order, 12);
    book.falls("a data line first of all", oem().insert(2, "2000-01-01T00:00:00 1 2 3 4 5 6"), Order, 2);
    book.falls("a data line after META_START of a second segment", wide_oem().insert(21, "2000-01-01T00:00:00 1 2 3 4 5 6"), Order, 21);
    book.falls("a header of a second segment", wide_oem().insert(20, "CREATION_DATE=2000-001T00:00:00"), Order, 20);
}

/// Two things wrong with a message: the earlier line, and on one line the earlier check.
pub(super) fn first_reasons(book: &mut Book) {
    book.falls("ORDER before VALUE in an assignment", opm().put(10, "Y=."), Order, 10);
    book.falls("ORDER before UNIT in an assignment", opm().put(10, "Y=1 [DEG]"), Order, 10);
    book.falls("VALUE before UNIT", opm().put(10, "X=.5 [DEG]"), Value, 10);
    book.falls("VALUE before TIME_ORDER in an assignment", oem().put(11, "STOP_TIME=1999-366T00:00:00"), Value, 11);
    book.falls("VALUE before TIME_ORDER in a data line", oem().put(13, "2001-01-01T00:00:00 1 2 3 4 5 x"), Value, 13);
    book.falls("ORDER before VALUE in a data line", oem().insert(3, "x x x x x x x"), Order, 3);
    book.falls("ORDER before TIME_ORDER", oem().insert(12, "STOP_TIME=1999-001T00:00:00"), Order, 12);
    book.falls("the earlier of two VALUE lines", opm().put(10, "X=.").put(12, "Z=."), Value, 10);
    book.falls("UNIT on an earlier line than LONG", opm().put(10, "X=1 [M]").put(11, "z".repeat(300)), Unit, 10);
    book.falls("TIME_ORDER on an earlier line than BYTE", oem().put(11, "STOP_TIME=1999-001T00:00:00").put(12, "\t"), TimeOrder, 11);
    book.falls("VALUE on an earlier line than SHORT", oem().put(3, "ORIGINATOR=").drop(13), Value, 3);
    book.falls("ORDER after the end, not SHORT", opm().put(20, "MASS=1"), Order, 20);
    book.falls("a wrong heading hides all else", opm().put(1, "CCSDS_OPM_VERS=").put(2, "x").keep(4), Value, 1);
}

/// Groups and lines of rows, of comments too. The OPM's sets begin at bytes 369 and 487; the OEM's second segment at 434.
pub(super) fn groups(book: &mut Book) {
    let sets = [
        (0, [1, 0, 1, 15, 3]),
        (26, [28, 0, 27, 366, 2]),
        (27, [29, 1, 28, 388, 17]),
        (33, [35, 1, 34, 485, 1]),
        (34, [29, 2, 35, 506, 17]),
        (40, [35, 2, 41, 603, 1]),
    ];
    book.shows("groups of an OPM", wide_opm(), 41, &sets);
    let comment = wide_opm().insert(28, "COMMENT");
    book.shows("a comment before the first set is in group 0", comment, 42, &[(27, [45, 0, 28, 376, 0])]);
    let comment = wide_opm().insert(29, "COMMENT");
    book.shows("a comment within the first set is in group 1", comment, 42, &[(28, [45, 1, 29, 413, 0])]);
    let comment = wide_opm().insert(35, "COMMENT");
    book.shows("a comment before the second set is in group 1", comment, 42, &[(34, [45, 1, 35, 494, 0])]);
    let comment = wide_opm().add("COMMENT");
    book.shows("a comment after the second set is in group 2", comment, 42, &[(41, [45, 2, 42, 612, 0])]);
    let comment = oem().insert(4, "COMMENT");
    book.shows("a comment before META_START is in group 0", comment, 20, &[(3, [45, 0, 4, 73, 0]), (4, [37, 1, 5, 84, 0])]);
    let comment = oem().insert(5, "COMMENT");
    book.shows("a comment after META_START is in group 1", comment, 20, &[(4, [45, 1, 5, 84, 0])]);
    let comment = wide_oem().insert(20, "COMMENT x");
    book.shows("a comment before a second segment is in group 1", comment, 61, &[(37, [45, 1, 20, 442, 1]), (38, [37, 2, 21, 454, 0])]);
    let comment = wide_oem().insert(21, "COMMENT x");
    book.shows("a comment in a second segment is in group 2", comment, 61, &[(37, [37, 2, 20, 444, 0]), (38, [45, 2, 21, 453, 1])]);
    book.shows("data of a second segment is in group 2", wide_oem(), 60, &[(59, [15, 2, 30, 646, 1])]);
}
