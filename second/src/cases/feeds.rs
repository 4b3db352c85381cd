//! Cases about whole feeds: figures, message numbers, headings, several messages, and sizes.

use super::{day, joined_sheets, oem, opm, row, wide_opm, Book, Sheet, Want, FULL_ROWS};
use crate::bytes::Bytes;
use crate::judge::Reason::{self, *};

/// The figures of document 002 as printed.
pub(super) fn figures(book: &mut Book) {
    book.stands("figure 3-1", include_bytes!("../../../examples/figure-3-1.opm").to_vec(), 27);
    book.stands("figure 3-2", include_bytes!("../../../examples/figure-3-2.opm").to_vec(), 51);
    book.falls(
        "figure 4-1 as printed, at its first line of omission",
        include_bytes!("../../../examples/figure-4-1.oem").to_vec(),
        Value,
        26,
    );
    book.stands("figure 4-1 without its lines of omission", include_bytes!("../../../examples/figure-4-1-whole.oem").to_vec(), 88);
    let pair = include_bytes!("../../../examples/damaged-pair.feed").to_vec();
    book.add("damaged pair, first message", pair.clone(), Ok(2), 1, Want::Refused(Value, 11));
    book.add("damaged pair, second message", pair, Ok(2), 2, Want::Accepted { rows: 27, shown: Vec::new() });
}

/// Document 01's feed, all its rows, and its variants.
pub(super) fn full_feed(book: &mut Book) {
    let feed: Vec<u8> = oem().into();
    assert_eq!(feed.len(), 244, "document 01's feed has 244 bytes");
    let shown: Vec<(usize, [u32; 5])> = FULL_ROWS.into_iter().enumerate().collect();
    book.shows("the feed in full", feed, 19, &shown);
    book.falls("the feed without line 13", oem().drop(13), Short, 13);
    book.falls("the feed with line 12 twice", oem().twice(12), Order, 13);
}

/// Message numbers that no message has.
pub(super) fn numbers_of_messages(book: &mut Book) {
    let none = |book: &mut Book, name: &str, message: u64| {
        book.add(name, oem().into(), Ok(1), message, Want::Refused(NoMessage, 0));
    };
    none(book, "message 0", 0);
    none(book, "message 2 of one", 2);
    none(book, "message 3 of one", 3);
    none(book, "message 65536", 65_536);
    none(book, "message 65537, 1 in 16 bits", 65_537);
    none(book, "message 4294967295", 4_294_967_295);
    none(book, "message 4294967297, 1 in 32 bits", 4_294_967_297);
    none(book, "message 2 to the 63rd", 1 << 63);
    none(book, "the greatest message number", u64::MAX);
    for message in [0, 1, u64::MAX] {
        book.add(&format!("empty feed, message {message}"), Vec::new(), Ok(0), message, Want::Refused(NoMessage, 0));
    }
    book.add("one LF, message 1", b"\n".to_vec(), Ok(0), 1, Want::Refused(NoMessage, 0));
    book.add("text without a heading", b"X = 1\n".to_vec(), Ok(0), 1, Want::Refused(NoMessage, 0));
}

/// Which lines are headings, and what is wrong with them then.
pub(super) fn headings(book: &mut Book) {
    let no_heading = |book: &mut Book, text: &str| {
        let feed = oem().put(1, text).into();
        book.add(&format!("no heading: {text:?}"), feed, Ok(0), 1, Want::Refused(NoMessage, 0));
    };
    for text in [
        "CCSDS_OEM_VERS", "CCSDS_OEM_VERS 1.0", "CCSDS_OEM_VER=1.0", "CCSDS_OEM_VERSION=1.0", "ccsds_oem_vers=1.0", "CCSDS_OMM_VERS=1.0",
        "CCSDS_OCM_VERS=1.0",
    ] {
        no_heading(book, text);
    }
    for text in [
        "CCSDS OEM VERS=1.0", "\tCCSDS_OEM_VERS=1.0", "CCSDS_OEM_VERS\t=1.0", "CCSDS_OEM_VERS x=1.0", "=CCSDS_OEM_VERS=1.0",
        "COMMENT CCSDS_OEM_VERS=1.0", "_CCSDS_OEM_VERS=1.0", "",
    ] {
        no_heading(book, text);
    }
    let stands = |book: &mut Book, text: &str| book.stands(&format!("heading {text:?}"), oem().put(1, text), 19);
    for text in ["CCSDS_OEM_VERS = 1.0", "   CCSDS_OEM_VERS=1.0", "CCSDS_OEM_VERS    =    1.0   ", "          CCSDS_OEM_VERS          =1.0"]
    {
        stands(book, text);
    }
    let falls = |book: &mut Book, text: &str, reason: Reason| book.falls(&format!("heading {text:?}"), oem().put(1, text), reason, 1);
    for text in [
        "CCSDS_OEM_VERS=", "CCSDS_OEM_VERS=   ", "CCSDS_OEM_VERS=2.0", "CCSDS_OEM_VERS=1", "CCSDS_OEM_VERS=1.00", "CCSDS_OEM_VERS=01.0",
        "CCSDS_OEM_VERS=+1.0",
    ] {
        falls(book, text, Value);
    }
    for text in [
        "CCSDS_OEM_VERS=1.0 [KM]", "CCSDS_OEM_VERS==1.0", "CCSDS_OEM_VERS=1.0=", "CCSDS_OEM_VERS=1 .0", "CCSDS_OEM_VERS=1.0 x",
        "CCSDS_OEM_VERS=1.1",
    ] {
        falls(book, text, Value);
    }
    for text in ["CCSDS_OEM_VERS=1.0\t", "CCSDS_OEM_VERS=\u{0}", "  CCSDS_OEM_VERS =1.0\u{7f}"] {
        falls(book, text, Byte);
    }
    book.falls("heading of 255 bytes", oem().put(1, format!("{:255}", "CCSDS_OEM_VERS=1.0")), Long, 1);
    book.stands("heading of 254 bytes", oem().put(1, format!("{:254}", "CCSDS_OEM_VERS=1.0")), 19);
    book.falls("heading after 300 blanks", oem().put(1, format!("{:300}CCSDS_OEM_VERS=1.0", "")), Long, 1);
    book.falls("heading whose sign is the 300th byte", oem().put(1, format!("{:299}=1.0", "CCSDS_OEM_VERS")), Long, 1);
    book.falls("long heading with a bad byte", oem().put(1, format!("{:300}\t", "CCSDS_OEM_VERS=1.0")), Long, 1);
    book.falls("OPM heading over an OEM's lines", oem().put(1, "CCSDS_OPM_VERS=1.0"), Form, 4);
    book.falls("OEM heading over an OPM's lines", opm().put(1, "CCSDS_OEM_VERS=1.0"), Order, 4);
    book.falls("OPM heading of a wrong version", opm().put(1, "CCSDS_OPM_VERS=3.0"), Value, 1);
    book.falls("a heading alone", Sheet::of(&["CCSDS_OPM_VERS=1.0"]), Short, 2);
    book.falls("a heading alone, without an ending", b"CCSDS_OEM_VERS=1.0".to_vec(), Short, 2);
}

/// Several messages to a feed, and bytes before the first.
pub(super) fn several_messages(book: &mut Book) {
    let accepted = |rows| Want::Accepted { rows, shown: Vec::new() };
    let two = joined_sheets(&[opm(), oem()]);
    book.add("OPM and OEM, message 1", two.clone(), Ok(2), 1, accepted(20));
    book.add("OPM and OEM, message 2", two.clone(), Ok(2), 2, accepted(19));
    book.add("OPM and OEM, message 3", two.clone(), Ok(2), 3, Want::Refused(NoMessage, 0));
    book.add("OPM and OEM, message 0", two, Ok(2), 0, Want::Refused(NoMessage, 0));
    let short = joined_sheets(&[wide_opm().keep(30), oem(), opm().drop(3)]);
    book.add("three messages, the first short", short.clone(), Ok(3), 1, Want::Refused(Short, 31));
    book.add("three messages, the second sound", short.clone(), Ok(3), 2, accepted(19));
    book.add("three messages, the third out of order", short, Ok(3), 3, Want::Refused(Order, 3));
    let gap = joined_sheets(&[oem().drop(13).add("").add("   "), oem()]);
    book.add("blank lines before the next heading count for the first", gap.clone(), Ok(2), 1, Want::Refused(Short, 15));
    book.add("blank lines before a heading are not its own", gap, Ok(2), 2, accepted(19));
    let twice = oem().twice(1);
    book.add("heading twice, message 1", twice.clone().into(), Ok(2), 1, Want::Refused(Short, 2));
    book.add("heading twice, message 2", twice.into(), Ok(2), 2, accepted(19));
    let inner = opm().insert(11, "CCSDS_OPM_VERS = 1.0");
    book.add("heading within an OPM, message 1", inner.clone().into(), Ok(2), 1, Want::Refused(Short, 11));
    book.add("heading within an OPM, message 2", inner.into(), Ok(2), 2, Want::Refused(Order, 2));
    let late = oem().add("CCSDS_OEM_VERS=");
    book.add("heading after a sound message, message 1", late.clone().into(), Ok(2), 1, accepted(19));
    book.add("heading after a sound message, message 2", late.into(), Ok(2), 2, Want::Refused(Value, 1));
    let bad_second = joined_sheets(&[oem(), oem().put(1, format!("{:300}", "CCSDS_OEM_VERS=1.0"))]);
    book.add("a long heading ends the message before it", bad_second.clone(), Ok(2), 1, accepted(19));
    book.add("a long heading begins its own message", bad_second, Ok(2), 2, Want::Refused(Long, 1));
    garbage(book);
}

fn garbage(book: &mut Book) {
    let every_byte: Vec<u8> = (0..=255).collect();
    let shown = vec![(0, row([36, 0, 1, 272, 3])), (18, row([15, 1, 13, 499, 1]))];
    book.add(
        "every byte before the heading",
        [&every_byte[..], b"\n", &oem().ended(b"\n")].concat(),
        Ok(1),
        1,
        Want::Accepted { rows: 19, shown },
    );
    book.stands("a long line before the heading", [&[b'x'; 999][..], b"\r", &oem().ended(b"\n")].concat(), 19);
    book.stands("blank lines before the heading", [b"\n\r\n \n", &oem().ended(b"\n")[..]].concat(), 19);
    book.stands("a comment before the heading", [b"COMMENT x\n", &oem().ended(b"\n")[..]].concat(), 19);
    book.stands("nearly a heading before the heading", [b"CCSDS_OPM_VERS\n", &oem().ended(b"\n")[..]].concat(), 19);
    let joined = [b"x", &oem().ended(b"\n")[..]].concat();
    book.add("a byte in front of the heading on its line", joined, Ok(0), 1, Want::Refused(NoMessage, 0));
}

/// Feeds about 65,535 bytes, which was the limit before request (vi), and about 16,777,215; the full feed takes 244 of them.
pub(super) fn sizes(book: &mut Book) {
    let with = |size: usize| Bytes::padded(oem(), size, b'\n');
    let accepted = |rows| Want::Accepted { rows, shown: Vec::new() };
    for size in [65_534, 65_535, 65_536, 65_537, 65_780, 131_072] {
        book.add_shared(&format!("feed of {size} bytes, filled with LF"), &with(size), Ok(1), 1, accepted(19));
        book.add_shared(&format!("feed of {size} bytes, message 2"), &with(size), Ok(1), 2, Want::Refused(NoMessage, 0));
    }
    for size in [16_777_214, 16_777_215] {
        book.great(&format!("feed of {size} bytes, filled with LF"), with(size), accepted(19));
    }
    // 16,777,460 bytes are the 244 of the feed in full in 24 bits.
    for size in [16_777_216, 16_777_217, 16_777_460, 33_554_432] {
        let feed = with(size);
        for message in [1, 0, 2] {
            let name = format!("feed of {size} bytes, message {message}");
            book.add_shared(&name, &feed, Err(FeedLong), message, Want::Refused(FeedLong, 0));
        }
    }
    for size in [65_535, 65_536] {
        let none = Want::Refused(NoMessage, 0);
        book.add(&format!("{size} bytes without a heading"), vec![b' '; size], Ok(0), 1, none.clone());
        book.add(&format!("{size} line endings"), vec![b'\r'; size], Ok(0), 1, none);
    }
    let blank = |size: usize| Bytes::padded(Vec::new(), size, b' ');
    book.add_shared("16,777,215 bytes without a heading", &blank(16_777_215), Ok(0), 1, Want::Refused(NoMessage, 0));
    book.add_shared("16,777,216 bytes without a heading", &blank(16_777_216), Err(FeedLong), 1, Want::Refused(FeedLong, 0));
    great_lines(book);
    great_values(book);
    book.stands("10,000 data lines", day::seconds(10_000), 70_012);
}

/// The feed in full, so many LF and then a text.
fn late(endings: usize, text: &[u8]) -> Vec<u8> {
    [&oem().ended(b"\n"), &vec![b'\n'; endings], text].concat()
}

/// Refusals at lines about 65,536 and at the last line of the greatest feed: with so many LF after its 13 lines, what comes next is line 14 and so many more.
fn great_lines(book: &mut Book) {
    let before: Vec<u8> = b"CCSDS_OEM_VERS=1.0\n".to_vec();
    for line in [65_304, 65_534, 65_535, 65_536, 65_537, 70_000, 131_072] {
        let after = |text: &[u8]| late(line - 14, text);
        book.falls(&format!("a wrong line, number {line}"), after(b"x"), Form, line);
        book.falls(&format!("a long line, number {line}"), after(&[b' '; 255]), Long, line);
        book.falls(&format!("a bad byte in line {line}"), after(b"\t"), Byte, line);
        book.falls(&format!("a strange keyword in line {line}"), after(b"x="), Keyword, line);
        book.falls(&format!("META_STOP in line {line}"), after(b"META_STOP\n"), Order, line);
        book.falls(&format!("a wrong number in line {line}"), after(b"2000-001T00:00:00 1 2 3 4 5 .6"), Value, line);
        book.falls(&format!("a late time in line {line}"), after(b"2000-001T00:00:01 1 2 3 4 5 6"), TimeOrder, line);
        let short = [&before[..], &vec![b'\n'; line - 2]].concat();
        book.falls(&format!("short at line {line}"), short, Short, line);
        let state = [&opm().keep(9).ended(b"\n")[..], &vec![b'\n'; line - 10], b"X=1 [km]\n"].concat();
        book.falls(&format!("a wrong unit in line {line}"), state, Unit, line);
    }
    // Each is a byte longer than the one before, from 65,534 bytes on.
    for line in [65_303, 65_304, 65_305, 65_306] {
        book.falls(&format!("a feed of {} bytes, its last one wrong", line + 231), late(line - 14, b"="), Keyword, line);
    }
    book.great("a wrong line at the end of the greatest feed", late(16_776_970, b"x"), Want::Refused(Form, 16_776_984));
}

/// Values about byte 65,536; the last comment's value is the last byte of its feed, or stands just past it.
fn great_values(book: &mut Book) {
    for (endings, line, start) in [(65_282, 65_296, 65_534), (65_283, 65_297, 65_535), (65_284, 65_298, 65_536), (65_522, 65_536, 65_774)] {
        book.shows(&format!("a value at byte {start}"), late(endings, b"COMMENT x"), 20, &[(19, [45, 1, line, start, 1])]);
        let empty = late(endings, b"COMMENT");
        book.shows(&format!("an empty value just before byte {start}"), empty, 20, &[(19, [45, 1, line, start - 1, 0])]);
    }
}

/// Headings by the thousand: one has 16 bytes, and 65,537 of them are 1 in 16 bits.
pub(super) fn many_headings(book: &mut Book) {
    let messages: Bytes = b"CCSDS_OPM_VERS=\n".repeat(70_000).into();
    for message in [1, 65_535, 65_536, 65_537, 70_000] {
        let name = format!("70,000 headings, message {message}");
        book.add_shared(&name, &messages, Ok(70_000), message, Want::Refused(Value, 1));
    }
    for message in [0, 70_001, 135_536, 4_294_967_297] {
        let name = format!("70,000 headings, message {message}");
        book.add_shared(&name, &messages, Ok(70_000), message, Want::Refused(NoMessage, 0));
    }
    let last = [&messages[..], &oem().ended(b"\n")].concat();
    let shown = vec![(0, row([36, 0, 1, 1_120_015, 3])), (18, row([15, 1, 13, 1_120_242, 1]))];
    book.add("70,000 headings and a sound message", last, Ok(70_001), 70_001, Want::Accepted { rows: 19, shown });
}
