//! What is counted of explanations: where the offending bytes stand and what they are, and the codes that are listed.
//! It is known by the look of the blamed line and of what stands about it, so that the explainer is not asked.

use crate::shown::Shown;
use second::judge::{coded, is_heading, Explained, Feed, Kind, Reason, Wanted};

/// What an explanation can be counted as, in the words of the report.
const NAMES: [&str; 64] = [
    "VALUE of a heading", "VALUE of an integer", "VALUE of a number", "VALUE of an epoch", "empty value of a heading",
    "empty value of an integer", "empty value of a number", "empty value of an epoch", "empty value of a text",
    "empty value with blanks after the sign", "VALUE of field 1 of a data line", "VALUE of field 2", "VALUE of field 3",
    "VALUE of field 4", "VALUE of field 5", "VALUE of field 6", "VALUE of field 7", "VALUE of a number with more after it", "keyword",
    "empty keyword", "empty keyword after blanks", "UNIT of a number with a unit", "UNIT of a number without one",
    "UNIT with a blank in it", "TIME_ORDER of a bound", "TIME_ORDER of a data line", "ORDER of an assignment", "ORDER of a META line",
    "ORDER of a data line", "ORDER of a data line after data and a comment", "ORDER with blanks about the line", "FORM in an OPM",
    "FORM in an OEM", "FORM with blanks about the line", "LONG by one byte", "LONG by more", "LONG heading", "BYTE below 32",
    "BYTE above 126", "BYTE in a heading", "BYTE with more of them after it", "1 code for ORDER", "2 codes for ORDER", "3 codes for ORDER",
    "1 code for SHORT", "2 codes for SHORT", "3 codes for SHORT", "SHORT before another heading", "SHORT at the feed's end",
    "SHORT after a line without an ending", "LONG not in the first message", "BYTE not in the first message",
    "FORM not in the first message", "KEYWORD not in the first message", "ORDER not in the first message",
    "VALUE not in the first message", "UNIT not in the first message", "TIME_ORDER not in the first message",
    "SHORT not in the first message", "after LF", "after CR", "after CR LF", "after LF CR", "in the line after a comment",
];

/// The places of names that belong together, by the first of them.
const VALUE_OF: usize = 0;
const NUMBER: usize = 2;
const EMPTY_OF: usize = 4;
const EMPTY_BEFORE_BLANKS: usize = 9;
const FIELD: usize = 10;
const NUMBER_AND_MORE: usize = 17;
const WORD: usize = 18;
const NO_WORD: usize = 19;
const NO_WORD_AFTER_BLANKS: usize = 20;
const UNIT: usize = 21;
const UNIT_WITH_BLANK: usize = 23;
const BOUND_TIME: usize = 24;
const DATA_TIME: usize = 25;
const ORDER_OF: usize = 26;
const PARTED: usize = 29;
const ORDER_WITH_BLANKS: usize = 30;
const FORM_IN: usize = 31;
const FORM_WITH_BLANKS: usize = 33;
const LONG_BY: usize = 34;
const LONG_HEADING: usize = 36;
const BYTE: usize = 37;
const BYTE_IN_HEADING: usize = 39;
const MORE_BYTES: usize = 40;
const ORDER_CODES: usize = 41;
const SHORT_CODES: usize = 44;
const SHORT_BEFORE: usize = 47;
const SHORT_AT_END: usize = 48;
const SHORT_OPEN: usize = 49;
const NOT_FIRST: usize = 50;
const AFTER: usize = 59;
const AFTER_COMMENT: usize = 63;

/// How many explanations were counted as each.
pub type Blames = Shown<{ NAMES.len() }>;

pub fn blames() -> Blames {
    Shown::new("generated explanations by what they show", "blames", NAMES)
}

/// The codes that can be listed, with the type of the message.
const CODES: [&str; 50] = [
    "OPM 2", "OPM 3", "OPM 4", "OPM 5", "OPM 6", "OPM 7", "OPM 8", "OPM 9", "OPM 10", "OPM 11", "OPM 12", "OPM 13", "OPM 14", "OPM 15",
    "OPM 16", "OPM 17", "OPM 18", "OPM 19", "OPM 20", "OPM 21", "OPM 22", "OPM 23", "OPM 24", "OPM 25", "OPM 26", "OPM 27", "OPM 28",
    "OPM 29", "OPM 30", "OPM 31", "OPM 32", "OPM 33", "OPM 34", "OPM 35", "OEM 2", "OEM 3", "OEM 4", "OEM 5", "OEM 6", "OEM 7", "OEM 8",
    "OEM 9", "OEM 37", "OEM 38", "OEM 39", "OEM 40", "OEM 41", "OEM 42", "OEM 43", "OEM 44",
];

/// How many explanations listed each.
pub type Listed = Shown<{ CODES.len() }>;

pub fn listed() -> Listed {
    Shown::new("generated explanations by the codes they list", "listed codes", CODES)
}

/// The codes that an explanation lists, by their places among the names.
pub fn codes(bytes: &[u8], feed: &Feed, message: u64, explained: &Explained) -> Vec<usize> {
    let Some(kind) = kind_of(bytes, feed, message) else { return Vec::new() };
    let name = |code: &u32| format!("{} {code}", if kind == Kind::Opm { "OPM" } else { "OEM" });
    explained.listed().iter().filter_map(|code| CODES.iter().position(|other| *other == name(code))).collect()
}

fn kind_of(bytes: &[u8], feed: &Feed, message: u64) -> Option<Kind> {
    let heading = feed.place(message, 1)?;
    is_heading(&bytes[heading.line_start..heading.line_end])
}

/// A refused message's type, what stands before its blamed line, and that line in the three parts that the offending bytes make of it.
struct Scene<'f> {
    kind: Kind,
    earlier: &'f [u8],
    before: &'f [u8],
    offending: &'f [u8],
    after: &'f [u8],
}

impl Scene<'_> {
    fn has_sign(&self) -> bool {
        [self.before, self.offending, self.after].iter().any(|part| part.contains(&b'='))
    }

    fn is_heading(&self) -> bool {
        self.earlier.is_empty()
    }

    fn has_blanks(&self) -> bool {
        !self.before.is_empty() || !self.after.is_empty()
    }

    /// What the keyword before the sign wants.
    fn wanted(&self) -> Option<Wanted> {
        let word = self.before.split(|byte| *byte == b'=').next()?.trim_ascii();
        (1..=45).map(coded).find(|other| other.name.as_bytes() == word).map(|word| word.wanted)
    }

    /// The lines before the blamed one, from the last back, without the blank ones.
    fn earlier_lines(&self) -> impl Iterator<Item = &[u8]> {
        self.earlier.rsplit(|byte| matches!(byte, b'\r' | b'\n')).map(<[u8]>::trim_ascii).filter(|line| !line.is_empty())
    }

    fn is_after_comment(&self) -> bool {
        self.earlier_lines().next().is_some_and(is_comment)
    }
}

fn is_comment(line: &[u8]) -> bool {
    line == b"COMMENT" || line.starts_with(b"COMMENT ")
}

/// What an explanation shows; one without a line shows nothing.
pub fn things(bytes: &[u8], feed: &Feed, message: u64, explained: &Explained) -> Vec<usize> {
    let Some(reason) = Reason::of_number(explained.reason).filter(|_| explained.line > 0) else { return Vec::new() };
    let not_first = (message > 1).then_some(NOT_FIRST + explained.reason as usize - 3);
    let start = explained.start as usize;
    if reason == Reason::Short {
        let codes = SHORT_CODES + explained.listed().len() - 1;
        let place = if start < bytes.len() { SHORT_BEFORE } else { SHORT_AT_END };
        let is_open = bytes[..start].last().is_some_and(|byte| !matches!(byte, b'\r' | b'\n'));
        return [codes, place].into_iter().chain(is_open.then_some(SHORT_OPEN)).chain(not_first).collect();
    }
    let Some((kind, place)) = kind_of(bytes, feed, message).zip(feed.place(message, explained.line as usize)) else { return Vec::new() };
    let end = start + explained.length as usize;
    let scene = Scene {
        kind,
        earlier: &bytes[place.message_start..place.line_start],
        before: &bytes[place.line_start..start],
        offending: &bytes[start..end],
        after: &bytes[end..place.line_end],
    };
    let mut things = of_reason(&scene, reason, explained);
    things.extend(not_first);
    things.extend(after_ending(scene.earlier));
    things.extend(scene.is_after_comment().then_some(AFTER_COMMENT));
    things
}

/// Which ending stands before the blamed line, if there is but one reading of it.
fn after_ending(earlier: &[u8]) -> Option<usize> {
    let run = earlier.iter().rev().take_while(|byte| matches!(byte, b'\r' | b'\n')).count();
    match &earlier[earlier.len() - run..] {
        b"\n" => Some(AFTER),
        b"\r" => Some(AFTER + 1),
        b"\r\n" => Some(AFTER + 2),
        b"\n\r" => Some(AFTER + 3),
        _ => None,
    }
}

fn of_reason(scene: &Scene, reason: Reason, explained: &Explained) -> Vec<usize> {
    let is = |thing: usize, is_so: bool| is_so.then_some(thing);
    let Scene { kind, before, offending, after, .. } = *scene;
    let things = match reason {
        Reason::Long => vec![Some(LONG_BY + usize::from(offending.len() > 1)), is(LONG_HEADING, scene.is_heading())],
        Reason::Byte => {
            let has_more = after.iter().any(|byte| !(32..=126).contains(byte));
            vec![Some(BYTE + usize::from(offending[0] > 126)), is(BYTE_IN_HEADING, scene.is_heading()), is(MORE_BYTES, has_more)]
        }
        Reason::Form => vec![Some(FORM_IN + usize::from(kind == Kind::Oem)), is(FORM_WITH_BLANKS, scene.has_blanks())],
        Reason::Keyword if offending.is_empty() => vec![Some(NO_WORD), is(NO_WORD_AFTER_BLANKS, !before.is_empty())],
        Reason::Keyword => vec![Some(WORD)],
        Reason::Order => of_order(scene, explained),
        Reason::Value => of_value(scene),
        Reason::Unit => {
            let has_unit = matches!(scene.wanted(), Some(Wanted::Number(unit)) if !unit.is_empty());
            vec![Some(UNIT + usize::from(!has_unit)), is(UNIT_WITH_BLANK, offending.contains(&b' '))]
        }
        Reason::TimeOrder => vec![Some(if scene.has_sign() { BOUND_TIME } else { DATA_TIME })],
        Reason::Short | Reason::FeedLong | Reason::NoMessage => Vec::new(),
    };
    things.into_iter().flatten().collect()
}

fn of_order(scene: &Scene, explained: &Explained) -> Vec<Option<usize>> {
    let sort = match scene.offending {
        b"META_START" | b"META_STOP" => 1,
        _ if scene.has_sign() => 0,
        _ => 2,
    };
    let is_after_data = scene.earlier_lines().find(|line| !is_comment(line)).is_some_and(|line| line[0].is_ascii_digit());
    let is_parted = sort == 2 && scene.is_after_comment() && is_after_data;
    vec![
        Some(ORDER_OF + sort),
        is_parted.then_some(PARTED),
        scene.has_blanks().then_some(ORDER_WITH_BLANKS),
        Some(ORDER_CODES + explained.listed().len() - 1),
    ]
}

fn of_value(scene: &Scene) -> Vec<Option<usize>> {
    if !scene.has_sign() {
        let fields = scene.before.split(|byte| *byte == b' ').filter(|field| !field.is_empty()).count();
        return vec![Some(FIELD + fields)];
    }
    let kind = match scene.wanted() {
        Some(Wanted::Version) => 0,
        Some(Wanted::Integer) => 1,
        Some(Wanted::Number(_)) => NUMBER,
        Some(Wanted::Epoch) => 3,
        // A text can be wrong by being empty alone.
        Some(Wanted::Text) => 4,
        Some(Wanted::Nothing) | None => return Vec::new(),
    };
    let is_empty = scene.offending.is_empty();
    vec![
        Some(kind + if is_empty { EMPTY_OF } else { VALUE_OF }),
        (is_empty && !scene.after.is_empty()).then_some(EMPTY_BEFORE_BLANKS),
        (kind == NUMBER && !scene.after.trim_ascii().is_empty()).then_some(NUMBER_AND_MORE),
    ]
}

#[cfg(test)]
mod tests {
    use super::*;
    use crate::items::{generated_items, Ask};
    use second::judge::explain;

    fn shown(text: &str, message: u64) -> Vec<&'static str> {
        let bytes = text.as_bytes();
        let mut things = things(bytes, &Feed::new(bytes), message, &explain(bytes, message));
        things.sort_unstable();
        things.into_iter().map(|thing| NAMES[thing]).collect()
    }

    const HEAD: &str = "CCSDS_OEM_VERS=1.0\nCREATION_DATE=2000-001T00:00:00\nORIGINATOR=A\nMETA_START\nOBJECT_NAME=B\nOBJECT_ID=C\n\
        CENTER_NAME=D\nREF_FRAME=E\nTIME_SYSTEM=UTC\nSTART_TIME=2000-001T00:00:00\nSTOP_TIME=2000-001T00:00:00\nMETA_STOP\n";
    const DATA: &str = "2000-001T00:00:00 1 2 3 4 5 6\n";

    #[test]
    fn an_explanation_is_counted_by_the_look_of_its_bytes() {
        assert_eq!(shown("CCSDS_OPM_VERS= ", 1), ["empty value of a heading", "empty value with blanks after the sign"]);
        assert_eq!(shown("CCSDS_OPM_VERS=2\n", 1), ["VALUE of a heading"]);
        assert_eq!(shown("CCSDS_OPM_VERS=1.0\r\n =1\n", 1), ["empty keyword", "empty keyword after blanks", "after CR LF"]);
        assert_eq!(shown("CCSDS_OPM_VERS=1.0\nCOMMENT\nx=1\n", 1), ["keyword", "after LF", "in the line after a comment"]);
        assert_eq!(shown("CCSDS_OPM_VERS=1.0\n\n  x\n", 1), ["FORM in an OPM", "FORM with blanks about the line"]);
        assert_eq!(shown("CCSDS_OPM_VERS=1.0\rX=1", 1), ["ORDER of an assignment", "1 code for ORDER", "after CR"]);
        assert_eq!(shown("CCSDS_OPM_VERS=1.0\n\rX=1", 1), ["ORDER of an assignment", "1 code for ORDER", "after LF CR"]);
        assert_eq!(shown(&format!("{HEAD}{DATA}{DATA}"), 1), ["TIME_ORDER of a data line", "after LF"]);
        assert_eq!(shown(&format!("{HEAD}{}", DATA.replace('3', ".3")), 1), ["VALUE of field 4", "after LF"]);
        assert_eq!(
            shown(&format!("{HEAD}{DATA}\nCOMMENT x\n{DATA}"), 1),
            [
                "ORDER of a data line", "ORDER of a data line after data and a comment", "1 code for ORDER", "after LF",
                "in the line after a comment"
            ]
        );
        assert_eq!(shown(&format!("{HEAD}{DATA}META_STOP\n"), 1), ["ORDER of a META line", "2 codes for ORDER", "after LF"]);
    }

    #[test]
    fn the_end_of_a_message_is_counted_by_what_comes_there() {
        assert_eq!(shown("CCSDS_OPM_VERS=1.0", 1), ["1 code for SHORT", "SHORT at the feed's end", "SHORT after a line without an ending"]);
        let two = "CCSDS_OPM_VERS=1.0\nCCSDS_OPM_VERS=1.0\n";
        assert_eq!(shown(two, 1), ["1 code for SHORT", "SHORT before another heading"]);
        assert_eq!(shown(two, 2), ["1 code for SHORT", "SHORT at the feed's end", "SHORT not in the first message"]);
        assert_eq!(shown(&format!("{HEAD}{DATA}"), 1), Vec::<&str>::new());
        assert_eq!(shown(two, 3), Vec::<&str>::new());
    }

    #[test]
    fn generated_feeds_bring_each_often_enough() {
        let seed = 1;
        let (mut blames, mut listed) = (blames(), listed());
        for item in (0..4_000).flat_map(|turn| generated_items(seed, turn)) {
            let Ask::Explain(asked) = &item.ask else { continue };
            let feed = Feed::new(&asked.feed);
            for message in &asked.messages {
                let explained = feed.explain(*message);
                blames.add(things(&asked.feed, &feed, *message, &explained));
                listed.add(codes(&asked.feed, &feed, *message, &explained));
            }
        }
        println!("seed {seed}: {}; {}", blames.words(), listed.words());
        // A fifth of the feeds of a whole run.
        assert_eq!([blames.rare(20), listed.rare(20)].concat(), Vec::<String>::new());
    }

    #[test]
    fn every_code_has_its_name() {
        let bytes = HEAD.as_bytes();
        let explained = explain(bytes, 1);
        let names =
            |explained: &Explained| codes(bytes, &Feed::new(bytes), 1, explained).into_iter().map(|at| CODES[at]).collect::<Vec<_>>();
        assert_eq!(names(&explained), ["OEM 9"]);
        for code in (2..=9).chain(37..=44) {
            assert_eq!(names(&explained.with_codes(&[code])), [format!("OEM {code}")]);
        }
    }
}
