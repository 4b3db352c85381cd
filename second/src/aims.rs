//! Makes feeds with one message that is refused for a reason aimed at, and foretells what is said of it.
//! The lines and their places are the writer's, and what may come after a code stands here as a list, so neither judge nor grammar is asked.

use crate::bytes::Bytes;
use crate::clock::{Days, Time, DAY, SECOND};
use crate::dice::Dice;
use crate::harm::raw;
use crate::judge::{Explained, Reason};
use crate::make::{any_text, draft, line_text, oem, opm, write, Line, Part};

/// A feed, the message of it that is wrong, and what must be said of that message.
pub struct Aimed {
    pub feed: Bytes,
    pub message: u64,
    pub known: Explained,
}

/// Which line of a message was made wrong, counted from 0, where in it the offending bytes are, and which codes could stand there.
struct Blow {
    at: usize,
    offset: usize,
    length: usize,
    codes: Vec<u32>,
}

impl Blow {
    fn new(at: usize, offset: usize, length: usize) -> Blow {
        Blow { at, offset, length, codes: Vec::new() }
    }
}

/// A feed with a message that is refused for this reason, one of those that have a line.
pub fn aimed(reason: Reason, dice: &mut Dice) -> Aimed {
    let mut sketch = draft(dice);
    let at = dice.below(sketch.messages.len());
    let lines = &mut sketch.messages[at];
    match reason {
        Reason::Unit => *lines = opm(dice),
        Reason::TimeOrder => *lines = oem(dice),
        // An OPM has more states of its order than an OEM has.
        Reason::Order | Reason::Short if dice.percent(55) => *lines = full_opm(dice),
        Reason::Value if dice.percent(25) => *lines = oem(dice),
        _ => {}
    }
    let blow = match reason {
        Reason::Long => lengthen(lines, dice),
        Reason::Byte => spoil(lines, dice),
        Reason::Form => deform(lines, dice),
        Reason::Keyword => misname(lines, dice),
        Reason::Order => misplace(lines, dice),
        Reason::Value => misvalue(lines, dice),
        Reason::Unit => mismeasure(lines, dice),
        Reason::TimeOrder => mistime(lines, dice),
        Reason::Short => shorten(lines, dice),
        Reason::FeedLong | Reason::NoMessage => panic!("no line can be wrong by {}", reason.name()),
    };
    let written = write(&sketch, dice);
    let spot = written.spots[at][blow.at];
    let known = Explained {
        line: spot.line as u32,
        start: (spot.start + blow.offset) as u32,
        length: blow.length as u32,
        ..Explained::refused(reason)
    };
    Aimed { feed: written.feed.into(), message: at as u64 + 1, known: known.with_codes(&blow.codes) }
}

/// An OPM with Keplerian elements and a set.
fn full_opm(dice: &mut Dice) -> Vec<Line> {
    loop {
        let lines = opm(dice);
        if [16, 29].iter().all(|code| lines.iter().any(|line| line.code == *code)) {
            return lines;
        }
    }
}

/// A line of a message, at times its heading for certain.
fn any_or_heading(lines: &[Line], dice: &mut Dice) -> usize {
    if dice.percent(10) {
        0
    } else {
        dice.below(lines.len())
    }
}

fn is_oem(lines: &[Line]) -> bool {
    lines[0].code == 36
}

fn text_of(line: &Line) -> Vec<u8> {
    line_text(line).0
}

/// A line that has grown too long loses the blanks that it can go without.
fn tidy(line: &mut Line) {
    if text_of(line).len() > 254 {
        line.blanks = [0, 1, 1, 1, 0];
        line.stretch = 0;
    }
}

/// One of the places that pass the test; the maker sees to it that there is one.
fn any_at(lines: &[Line], dice: &mut Dice, test: impl Fn(&Line) -> bool) -> usize {
    let found: Vec<usize> = (0..lines.len()).filter(|at| test(&lines[*at])).collect();
    dice.pick(&found)
}

/// One of these by its name, each name as likely as any other, however many have it.
fn any_named<N: Ord + Copy, T: Copy>(all: &[(N, T)], dice: &mut Dice) -> T {
    let mut names: Vec<N> = all.iter().map(|(name, _)| *name).collect();
    names.sort_unstable();
    names.dedup();
    let name = dice.pick(&names);
    let found: Vec<T> = all.iter().filter(|(other, _)| *other == name).map(|(_, one)| *one).collect();
    dice.pick(&found)
}

/// LONG: any line, filled up with blanks, with letters, or with bytes that would be BYTE.
fn lengthen(lines: &mut [Line], dice: &mut Dice) -> Blow {
    let at = any_or_heading(lines, dice);
    let mut text = text_of(&lines[at]);
    let size = dice.pick(&[255, 255, 256, 257, 300, 1000]);
    text.resize(size, dice.pick(b" x\x7f"));
    lines[at] = raw(&text);
    Blow::new(at, 254, size - 254)
}

/// BYTE: any line; a heading is spoilt after its sign, since it would be none otherwise.
fn spoil(lines: &mut [Line], dice: &mut Dice) -> Blow {
    let at = any_or_heading(lines, dice);
    let mut text = text_of(&lines[at]);
    let least = if at == 0 { text.iter().position(|byte| *byte == b'=').map_or(0, |sign| sign + 1) } else { 0 };
    let bad = dice.pick(&[0, 1, 9, 9, 11, 12, 31, 127, 127, 128, 160, 255]);
    let place = if text.len() == 254 {
        let place = dice.between(least, 253);
        text[place] = bad;
        place
    } else {
        let place = dice.between(least, text.len());
        text.insert(place, bad);
        place
    };
    // The first such byte is meant, however many come after it.
    if dice.percent(30) {
        text[place..].iter_mut().skip(1).step_by(3).for_each(|byte| *byte = 200);
    }
    lines[at] = raw(&text);
    Blow::new(at, place, 1)
}

const FORMLESS: [&str; 9] =
    ["X", "OBJECT_NAME", "META_START x", "META_STOP  META_STOP", "a b c d e f", "1 2 3 4 5 6 7 8", "COMMENTS x", "comment", "~   ~"];
const FORMLESS_IN_OPM: [&str; 4] =
    ["META_START", "META_STOP", "2000-01-01T00:00:00 1 2 3 4 5 6", "< intervening data records omitted here >"];

/// FORM: a line more, with blanks about it.
fn deform(lines: &mut Vec<Line>, dice: &mut Dice) -> Blow {
    let text = if !is_oem(lines) && dice.percent(50) { dice.pick(&FORMLESS_IN_OPM) } else { dice.pick(&FORMLESS) };
    let [before, after] = [0, 1].map(|_| dice.pick(&[0, 0, 1, 3, 20]));
    let at = dice.between(1, lines.len());
    lines.insert(at, raw(format!("{}{text}{}", " ".repeat(before), " ".repeat(after)).as_bytes()));
    Blow::new(at, before, text.len())
}

const STRANGERS: [&str; 10] =
    ["", "", "W", "X DOT", "OBJECT_NAMES", "CCSDS_OMM_VERS", "META_START", "META_STOP", "CREATION  DATE", "COMMENT"];
const STRANGERS_IN_OPM: [&str; 4] = ["START_TIME", "STOP_TIME", "INTERPOLATION", "USEABLE_STOP_TIME"];
const STRANGERS_IN_OEM: [&str; 5] = ["EPOCH", "X", "Z_DOT", "MASS", "MAN_DV_3"];

/// KEYWORD: an assignment with another word before its sign, or one more such line.
fn misname(lines: &mut Vec<Line>, dice: &mut Dice) -> Blow {
    let others: &[&str] = if is_oem(lines) { &STRANGERS_IN_OEM } else { &STRANGERS_IN_OPM };
    let new = if dice.percent(30) { dice.pick(others) } else { dice.pick(&STRANGERS) };
    let mut at = any_at(lines, dice, |line| line.code != 1 && line.code != 36 && matches!(line.part, Part::Assign { .. }));
    if dice.percent(40) {
        let line = lines[at].clone();
        at = dice.between(1, lines.len());
        lines.insert(at, line);
    }
    let line = &mut lines[at];
    let Part::Assign { word, .. } = &mut line.part else { panic!("not an assignment") };
    *word = if dice.percent(20) { word.to_lowercase() } else { new.to_string() };
    let size = word.len();
    // With a blank after it this would be a comment.
    line.blanks[1] *= usize::from(word != "COMMENT");
    tidy(line);
    let [before, after, ..] = line.blanks;
    Blow::new(at, if size == 0 { before + after } else { before }, size)
}

/// What may come after a code, in code order; a data line is 9 in an OEM. After a data line and a comment none may come.
fn followers(is_oem: bool, code: u32, is_parted: bool) -> Vec<u32> {
    match (is_oem, code) {
        (false, 15) => vec![16, 24],
        (false, 20) => vec![21, 22],
        (false, 21 | 22) => vec![23],
        (false, 35) => vec![29],
        (true, 3) => vec![37],
        (true, 8) => vec![38],
        (true, 9) if is_parted => vec![37],
        (true, 9) => vec![9, 37],
        (true, 36) => vec![2],
        (true, 37) => vec![4],
        (true, 38) => vec![39, 40, 41],
        (true, 39) => vec![40, 41],
        (true, 41) => vec![42, 44],
        (true, 44) => vec![9],
        _ => vec![code + 1],
    }
}

/// For each place from 1 on the code of the last line before it that is no comment and not blank, and whether a comment has come since.
fn states(lines: &[Line]) -> Vec<((u32, bool), usize)> {
    let mut state = (0, false);
    let after = |line: &Line| {
        state = match line.part {
            Part::Comment(_) => (state.0, true),
            Part::Blank => state,
            _ => (line.code, false),
        };
        state
    };
    lines.iter().map(after).zip(1..).collect()
}

/// A place of a message from 1 on that passes the test, and the codes that may come there: any state as likely as another, but those that more than
/// one code may come after more likely.
fn any_state(lines: &[Line], dice: &mut Dice, test: impl Fn(u32) -> bool) -> (usize, Vec<u32>) {
    let is_oem = is_oem(lines);
    let may_come = |(code, is_parted): (u32, bool)| followers(is_oem, code, is_parted);
    let mut all: Vec<_> = states(lines).into_iter().filter(|((code, _), _)| test(*code)).map(|(state, at)| (state, (state, at))).collect();
    let chance = if is_oem { 30 } else { 4 };
    if dice.percent(chance) && all.iter().any(|(state, _)| may_come(*state).len() > 1) {
        all.retain(|(state, _)| may_come(*state).len() > 1);
    }
    let (state, at) = any_named(&all, dice);
    (at, may_come(state))
}

/// ORDER: one line more, of a code that may not come there; its value may be wrong as well.
fn misplace(lines: &mut Vec<Line>, dice: &mut Dice) -> Blow {
    let is_oem = is_oem(lines);
    let is_parting = is_oem && dice.percent(15);
    let (at, codes) = if is_parting { part_data(lines, dice) } else { any_state(lines, dice, |_| true) };
    let fresh = if is_oem { oem(dice) } else { opm(dice) };
    let comes = |code: u32| if is_parting { code == 9 } else { !matches!(code, 0 | 45) && !codes.contains(&code) };
    let others = (1..fresh.len()).map(|at| (fresh[at].code, at)).filter(|(code, _)| comes(*code));
    let mut line = fresh[any_named(&others.collect::<Vec<_>>(), dice)].clone();
    match &mut line.part {
        Part::Assign { value, .. } if dice.percent(30) => value.clear(),
        Part::Data(fields) if dice.percent(30) => fields[0] = "x".to_string(),
        _ => {}
    }
    let text = text_of(&line);
    let is_text = |byte: &u8| *byte != b' ';
    let ends = text.iter().position(is_text).zip(text.iter().rposition(is_text));
    let (first, last) = ends.expect("no line of these is blank");
    lines.insert(at, line);
    Blow { codes, ..Blow::new(at, first, last + 1 - first) }
}

/// Puts a comment after a data line; no other may come after it.
fn part_data(lines: &mut Vec<Line>, dice: &mut Dice) -> (usize, Vec<u32>) {
    let at = any_at(lines, dice, |line| matches!(line.part, Part::Data(_))) + 1;
    lines.insert(at, Line { part: Part::Comment(any_text(dice)), ..raw(b"") });
    (at + 1, vec![37])
}

/// SHORT: the message ends where it may not.
fn shorten(lines: &mut Vec<Line>, dice: &mut Dice) -> Blow {
    let is_oem = is_oem(lines);
    let is_whole = |code: u32| if is_oem { code == 9 } else { matches!(code, 28 | 35) };
    let (at, codes) = any_state(lines, dice, |code| !is_whole(code));
    lines.truncate(at);
    Blow { codes, ..Blow::new(at, 0, 0) }
}

/// Values that are wrong for their kind; a text can be wrong by being empty alone. In a data line there is no blank in a value.
const HEADINGS: [&str; 8] = ["1.00", "2.0", "+1.0", "1", "1.0 1.0", "1 .0", "1.0 [KM]", "=1.0"];
const INTEGERS: [&str; 8] = ["2147483648", "-2147483649", "7 7", "0x10", "7.0", "1e1", "-", "7 [KM]"];
const NUMBERS: [&str; 20] = [
    ".5", "5.", "-", "+", "1,5", "1.2.3", "00000000000000000", "12345678901234567", "1.5E0003", "1.5E", "15E3", "1.E3", "1.5E+1000",
    "1.1234567890123456E1", "Infinity", "+-1", "5[KM]", "[KM]", "x", "0x1",
];
const EPOCHS: [&str; 12] = [
    "1900-02-29T00:00:00", "2001-366T00:00:00", "2000-01-01T24:00:00", "2000-01-01T22:59:60", "2000-01-01T23:59:61",
    "2000-01-01T00:00:00.", "2000-01-01T00:00:00Z", "0000-001T00:00:00", "2000-13-01T00:00:00", "2451534.29812",
    "2000-01-01T00:00:00.1234567890", "x",
];
const ASSIGNED_EPOCHS: [&str; 3] = ["2000-01-01 00:00:00", "2000-01-01T00:00:00 [S]", "1 2"];

/// The kinds of value, and a data line as one of them.
#[derive(Clone, Copy, PartialEq, Eq, PartialOrd, Ord)]
enum Kind {
    Heading,
    Text,
    Integer,
    Number,
    Epoch,
    Data,
}

fn kind_of(line: &Line) -> Option<Kind> {
    match (&line.part, line.code) {
        (Part::Data(_), _) => Some(Kind::Data),
        (Part::Assign { .. }, code) => Some(match code {
            1 | 36 => Kind::Heading,
            3..=8 | 32 | 42 => Kind::Text,
            43 => Kind::Integer,
            2 | 9 | 29 | 38..=41 => Kind::Epoch,
            _ => Kind::Number,
        }),
        _ => None,
    }
}

/// VALUE: an assigned value, or a field of a data line, each kind as often as another, but for integers, which are rare, and the many fields of data.
fn misvalue(lines: &mut [Line], dice: &mut Dice) -> Blow {
    let mut all: Vec<_> = (0..lines.len()).filter_map(|at| kind_of(&lines[at]).map(|kind| (kind, (kind, at)))).collect();
    let rare = dice.pick(&[Kind::Data, Kind::Data, Kind::Data, Kind::Integer]);
    if dice.percent(55) && all.iter().any(|(kind, _)| *kind == rare) {
        all.retain(|(kind, _)| *kind == rare);
    }
    let (kind, at) = any_named(&all, dice);
    let stray = stray_sixty(lines, at, dice);
    let line = &mut lines[at];
    let field = match &mut line.part {
        Part::Data(fields) => wrong_fields(fields, stray, dice),
        Part::Assign { value, unit, .. } => {
            *value = if dice.percent(55) { String::new() } else { wrong_value(kind, stray, dice) };
            // Before a unit nothing would be the value but the unit.
            if value.is_empty() {
                unit.clear();
            }
            0
        }
        _ => panic!("a line without a value"),
    };
    tidy(line);
    let (_, start, length) = line_text(line).1[field];
    let is_empty = length == 0;
    Blow::new(at, if is_empty { start - line.blanks[2] } else { start }, length)
}

/// Spoils a field of a data line, and at times one after it as well; the first is the one to name.
fn wrong_fields(fields: &mut [String], stray: Option<String>, dice: &mut Dice) -> usize {
    let field = dice.below(7);
    fields[field] = match (field, stray) {
        (0, Some(stray)) if dice.percent(50) => stray,
        (0, _) => dice.pick(&EPOCHS).to_string(),
        _ => dice.pick(&NUMBERS).to_string(),
    };
    if field < 6 && dice.percent(30) {
        fields[dice.between(field + 1, 6)] = dice.pick(&NUMBERS).to_string();
    }
    field
}

fn wrong_value(kind: Kind, stray: Option<String>, dice: &mut Dice) -> String {
    match (kind, stray) {
        (Kind::Epoch, Some(stray)) if dice.percent(30) => return stray,
        (Kind::Epoch, _) if dice.percent(20) => dice.pick(&ASSIGNED_EPOCHS),
        (Kind::Epoch, _) => dice.pick(&EPOCHS),
        (Kind::Heading, _) => dice.pick(&HEADINGS),
        (Kind::Integer, _) => dice.pick(&INTEGERS),
        (Kind::Number, _) => dice.pick(&NUMBERS),
        (Kind::Text | Kind::Data, _) => "",
    }
    .to_string()
}

/// Which days a line has, by the system that was named last before it.
fn days_at(lines: &[Line], at: usize) -> Days {
    let systems = lines[..at].iter().rev().filter(|line| line.code == 8);
    let is_utc = systems.take(1).any(|line| matches!(&line.part, Part::Assign { value, .. } if value == "UTC"));
    if is_utc {
        Days::Long
    } else {
        Days::Plain
    }
}

/// Second 60 of a line's own day, if its system has none; a creation date may have it under any.
fn stray_sixty(lines: &[Line], at: usize, dice: &mut Dice) -> Option<String> {
    let time = lines[at].time.filter(|_| lines[at].code != 2 && days_at(lines, at) == Days::Plain)?;
    Some(time.in_day(DAY).any_text(dice))
}

/// The unit that may stand after a number with this code.
fn unit_of(code: u32) -> &'static str {
    match code {
        10..=12 | 16 => "[KM]",
        13..=15 | 33..=35 => "[KM/S]",
        18..=22 => "[DEG]",
        23 => "[KM**3/S**2]",
        24 | 31 => "[KG]",
        25 | 27 => "[M**2]",
        30 => "[S]",
        _ => "",
    }
}

const UNITS: [&str; 17] = [
    "[KM]", "[KM/S]", "[DEG]", "[KM**3/S**2]", "[KG]", "[M**2]", "[S]", "[km]", "[]", "KM", "[KM", "[ KM ]", "[KM] x", "[KM]   [KM]", "5",
    "=", "1 2  3",
];

/// UNIT: a number with something else after it than its unit.
fn mismeasure(lines: &mut [Line], dice: &mut Dice) -> Blow {
    let all: Vec<_> = (0..lines.len()).filter(|at| kind_of(&lines[*at]) == Some(Kind::Number)).map(|at| (lines[at].code, at)).collect();
    let at = any_named(&all, dice);
    let line = &mut lines[at];
    let wrong: Vec<&str> = UNITS.into_iter().filter(|unit| *unit != unit_of(line.code)).collect();
    let new = dice.pick(&wrong);
    let Part::Assign { unit, .. } = &mut line.part else { panic!("not an assignment") };
    *unit = new.to_string();
    tidy(line);
    let (_, start, length) = line_text(line).1[0];
    Blow::new(at, start + length + line.blanks[3].max(1), new.len())
}

/// TIME_ORDER: a bound before the one before it, or a state not after the one before it, before the first bound or after the last.
fn mistime(lines: &mut Vec<Line>, dice: &mut Dice) -> Blow {
    loop {
        let timed = (0..lines.len()).filter(|at| matches!(lines[*at].code, 9 | 39..=41)).map(|at| (lines[at].code, at));
        let at = any_named(&timed.collect::<Vec<_>>(), dice);
        if let Some(time) = wrong_time(lines, at, dice) {
            let line = &mut lines[at];
            let text = time.any_text(dice);
            match &mut line.part {
                Part::Data(fields) => fields[0] = text,
                Part::Assign { value, .. } => *value = text,
                _ => panic!("a line without an epoch"),
            }
            tidy(line);
            let (_, start, length) = line_text(line).1[0];
            return Blow::new(at, start, length);
        }
        // Time begins with the year 1, and ends with the year 9999.
        *lines = oem(dice);
    }
}

/// A time that may not stand at this line; nothing, if time has no such.
fn wrong_time(lines: &[Line], at: usize, dice: &mut Dice) -> Option<Time> {
    let days = days_at(lines, at);
    let step = dice.pick(&[1, 1, SECOND, DAY]);
    let last = |test: fn(u32) -> bool| lines[..at].iter().rev().find(|line| test(line.code)).and_then(|line| line.time);
    let before = |time: Time| Some(time.minus(days, step)).filter(|early| *early < time);
    let after = |time: Time| Some(time.plus(days, step)).filter(|late| *late > time);
    if lines[at].code != 9 {
        return last(|code| matches!(code, 38..=40)).and_then(before);
    }
    let is_first = lines[..at].iter().rev().find(|line| matches!(line.code, 9 | 44)).is_some_and(|line| line.code == 44);
    match dice.below(3) {
        0 => last(|code| code == 38).and_then(before),
        1 => last(|code| code == 41).and_then(after),
        _ if is_first => None,
        _ if dice.percent(50) => last(|code| code == 9),
        _ => last(|code| code == 9).and_then(before),
    }
}

#[cfg(test)]
mod tests {
    use super::*;
    use crate::judge::{explain, judge, Answer, REASONS};

    #[test]
    fn the_explainer_says_what_is_foretold() {
        let seed = 83;
        for reason in &REASONS[2..] {
            for turn in 0..400 {
                let Aimed { feed, message, known } = aimed(*reason, &mut Dice::new(seed, turn));
                assert_eq!(explain(&feed, message), known, "seed {seed}, {}, turn {turn}", reason.name());
                let refused = Answer::Refused { reason: *reason, line: known.line as usize };
                assert_eq!(judge(&feed, message), refused, "seed {seed}, {}, turn {turn}", reason.name());
            }
        }
    }

    #[test]
    fn the_other_messages_are_sound() {
        let seed = 89;
        for reason in &REASONS[2..] {
            for turn in 0..30 {
                let aimed = aimed(*reason, &mut Dice::new(seed, turn));
                let feed = crate::judge::Feed::new(&aimed.feed);
                let count = feed.headings().expect("not too long") as u64;
                let others = (1..=count).filter(|message| *message != aimed.message);
                others.for_each(|message| assert!(matches!(feed.judge(message), Answer::Accepted(_)), "seed {seed}, turn {turn}"));
            }
        }
    }
}
