//! Damages feeds: drafts line by line, and written feeds byte by byte.

use crate::clock::{any_part, Days, Time, DAY, SECOND};
use crate::dice::Dice;
use crate::make::{any_number, any_text, line_text, oem, opm, Draft, Ending, Line, Part, ENDINGS, OTHER_SYSTEMS};

/// Ways to damage a draft; each does nothing where it finds nothing to damage.
const HARMS: [fn(&mut Draft, &mut Dice); 26] = [
    drop_line, double_line, swap_lines, move_line, change_word, change_value, change_value, change_unit, change_unit, change_time,
    change_time, cut_message, add_comment, lengthen_line, spoil_byte, add_formless, add_heading, change_mark, change_fields, add_stranger,
    stray_sixty, leave_utc, wrong_sixty, move_to_sixty, part_interpolation, part_interpolation,
];

/// Damages a draft in one way.
pub fn harm_draft(draft: &mut Draft, dice: &mut Dice) {
    let harm = dice.pick(&HARMS);
    harm(draft, dice);
}

/// Ways to damage a feed's bytes.
const BYTE_HARMS: [fn(&mut Vec<u8>, &mut Dice); 7] = [flip_byte, flip_byte, drop_bytes, add_byte, add_ending, cut_feed, double_bytes];

/// Damages the bytes of a feed in one way.
pub fn harm_bytes(feed: &mut Vec<u8>, dice: &mut Dice) {
    let harm = dice.pick(&BYTE_HARMS);
    harm(feed, dice);
}

fn any_message<'a>(draft: &'a mut Draft, dice: &mut Dice) -> &'a mut Vec<Line> {
    let at = dice.below(draft.messages.len());
    &mut draft.messages[at]
}

/// The place of a line of a message that passes the test.
fn any_place(lines: &[Line], dice: &mut Dice, test: fn(&Line) -> bool) -> Option<usize> {
    let found: Vec<usize> = (0..lines.len()).filter(|at| test(&lines[*at])).collect();
    (!found.is_empty()).then(|| dice.pick(&found))
}

/// A line of a message that passes the test.
fn any_line<'a>(lines: &'a mut [Line], dice: &mut Dice, test: fn(&Line) -> bool) -> Option<&'a mut Line> {
    any_place(lines, dice, test).map(|at| &mut lines[at])
}

/// A line of these bytes.
pub fn raw(bytes: &[u8]) -> Line {
    Line { part: Part::Raw(bytes.to_vec()), code: 0, group: 0, time: None, blanks: [0; 5], stretch: 0 }
}

fn add_line(draft: &mut Draft, dice: &mut Dice, line: Line) {
    let lines = any_message(draft, dice);
    let at = dice.between(0, lines.len());
    lines.insert(at, line);
}

fn drop_line(draft: &mut Draft, dice: &mut Dice) {
    let lines = any_message(draft, dice);
    if !lines.is_empty() {
        lines.remove(dice.below(lines.len()));
    }
}

fn double_line(draft: &mut Draft, dice: &mut Dice) {
    let lines = any_message(draft, dice);
    if !lines.is_empty() {
        let at = dice.below(lines.len());
        lines.insert(at, lines[at].clone());
    }
}

fn swap_lines(draft: &mut Draft, dice: &mut Dice) {
    let lines = any_message(draft, dice);
    if lines.len() > 1 {
        let at = dice.below(lines.len() - 1);
        let other = if dice.percent(60) { at + 1 } else { dice.below(lines.len()) };
        lines.swap(at, other);
    }
}

fn move_line(draft: &mut Draft, dice: &mut Dice) {
    let lines = any_message(draft, dice);
    if !lines.is_empty() {
        let line = lines.remove(dice.below(lines.len()));
        let to = dice.between(0, lines.len());
        lines.insert(to, line);
    }
}

const WORDS: [&str; 26] = [
    "", "X", "x", "X_DOT", "X DOT", "X_DOT_", "EPOCH", "START_TIME", "USEABLE_START_TIME", "USEABLE_STOP_TIME", "STOP_TIME",
    "INTERPOLATION", "INTERPOLATION_DEGREE", "META_START", "META_STOP", "COMMENT", "MASS", "GM", "TRUE_ANOMALY", "MEAN_ANOMALY",
    "MAN_EPOCH_IGNITION", "MAN_DV_3", "OBJECT_NAMES", "CCSDS_OPM_VERS", "CCSDS_OEM_VERS", "CCSDS_OMM_VERS",
];

fn change_word(draft: &mut Draft, dice: &mut Dice) {
    let new = if dice.percent(70) { dice.pick(&WORDS).to_string() } else { any_text(dice) };
    let line = any_line(any_message(draft, dice), dice, |line| matches!(line.part, Part::Assign { .. }));
    if let Some(Line { part: Part::Assign { word, .. }, .. }) = line {
        *word = if dice.percent(20) { word.to_lowercase() } else { new };
    }
}

/// Values at the edges of each kind; most of the time a line gets one of its own kind.
const NUMBERS: [&str; 32] = [
    "0.5", ".5", "5.", "-.5", "+", "-", "1,5", "1.2.3", "0000000000000000", "00000000000000000", "1234567890123456", "12345678901234567",
    "1234567890.123456", "1234567890.1234567", "1.5E3", "1.5e+003", "1.5E0003", "1.5E", "15E3", "1.E3", ".5E3", "1.5e-999", "1.5E+1000",
    "1.123456789012345E1", "1.1234567890123456E1", "-9.999999999999999E+99", "1.5d3", "Infinity", "+-1", "5[KM]", "5 5", "",
];
const EPOCHS: [&str; 41] = [
    "2000-02-29T00:00:00", "1900-02-29T00:00:00", "2100-02-29T00:00:00", "2001-02-29T00:00:00", "2000-366T00:00:00", "2001-366T00:00:00",
    "1900-366T00:00:00", "2000-367T00:00:00", "2001-000T00:00:00", "2000-01-01T24:00:00", "2000-01-01T23:60:00", "2000-01-01T23:59:60",
    "2000-001T24:00:00", "2000-001T23:59:60", "2000-01-01T23:59:60.5", "2000-366T23:59:60.1234567890", "2000-01-01T22:59:60",
    "2000-001T23:58:60", "2000-01-01T23:59:61", "2000-01-01T23:59:59.999999999", "2000-01-01T23:59:59.9999999999", "2000-01-01T00:00:00.",
    "2000-01-01T00:00:00Z", "2000-01-01T00:00:00.5 ", "2000-01-01 00:00:00", "2000-1-1T00:00:00", "2000-1T00:00:00", "0000-01-01T00:00:00",
    "0000-001T00:00:00", "0001-01-01T00:00:00", "9999-12-31T23:59:59", "2000-00-01T00:00:00", "2000-13-01T00:00:00", "2000-01-00T00:00:00",
    "2000-01-32T00:00:00", "2000-04-31T00:00:00", "2000-04-30T00:00:00", "2451534.29812", "2000-01-01t00:00:00", "2000-01-01T00:00:00 [S]",
    "",
];
const INTEGERS: [&str; 14] = [
    "2147483647", "2147483648", "-2147483648", "-2147483649", "+007", "7 7", "0x10", "7.0", "1e1", "", "-", "99999999999999999999",
    "000000000000000000000007", "7 [KM]",
];
const TEXTS: [&str; 12] = ["", "1.0", "1.00", "2.0", "+1.0", "A = B", "[KM]", "5 [KM]", "~", "COMMENT", "UTC", "TAI"];

/// A value for a line with this code, or one for any other.
fn any_value(dice: &mut Dice, code: u32) -> String {
    let code = if dice.percent(80) { code } else { dice.between(1, 43) as u32 };
    let edges: &[&str] = match code {
        2 | 9 | 29 | 38..=41 => &EPOCHS,
        43 => &INTEGERS,
        1 | 3..=8 | 32 | 36 | 42 => &TEXTS,
        _ => &NUMBERS,
    };
    match dice.below(10) {
        0 => any_text(dice),
        1 => any_number(dice),
        _ => dice.pick(edges).to_string(),
    }
}

fn change_value(draft: &mut Draft, dice: &mut Dice) {
    let lines = any_message(draft, dice);
    let Some(line) = any_line(lines, dice, |line| matches!(line.part, Part::Assign { .. } | Part::Data(_))) else { return };
    let (old, code) = match &mut line.part {
        Part::Assign { value, .. } => (value, line.code),
        Part::Data(fields) if !fields.is_empty() => {
            let at = dice.below(fields.len());
            (&mut fields[at], 9 + at as u32)
        }
        _ => return,
    };
    *old = if dice.percent(35) { nudged(old, dice) } else { any_value(dice, code) };
}

/// A value with one byte changed to one that may well stand in a value.
fn nudged(value: &str, dice: &mut Dice) -> String {
    let mut bytes = value.as_bytes().to_vec();
    let byte = dice.pick(b"0123456789..-+EeT: :");
    let at = dice.below(bytes.len() + 1);
    if at < bytes.len() && dice.percent(60) {
        bytes[at] = byte;
    } else if at < bytes.len() && dice.percent(50) {
        bytes.remove(at);
    } else {
        bytes.insert(at, byte);
    }
    String::from_utf8_lossy(&bytes).into_owned()
}

const UNITS: [&str; 19] = [
    "[KM]", "[KM/S]", "[DEG]", "[KM**3/S**2]", "[KG]", "[M**2]", "[S]", "[km]", "[]", "KM", "[KM", "KM]", "[ KM ]", "[KM] x", "[KM][KM]",
    "[M]", "[n/a]", "=", "5",
];

fn change_unit(draft: &mut Draft, dice: &mut Dice) {
    let new = dice.pick(&UNITS);
    // Mostly numbers; a unit after a text, an integer or an epoch is a trap of its own.
    let numbers = |line: &Line| matches!(line.part, Part::Assign { .. }) && matches!(line.code, 10..=28 | 30 | 31 | 33..=35);
    let others = |line: &Line| matches!(line.part, Part::Assign { .. });
    let test = if dice.percent(90) { numbers } else { others };
    let line = any_line(any_message(draft, dice), dice, test);
    if let Some(Line { part: Part::Assign { unit, .. }, .. }) = line {
        *unit = new.to_string();
    }
}

/// Gives a line the time of another one of its message, or one close to it.
fn change_time(draft: &mut Draft, dice: &mut Dice) {
    let lines = any_message(draft, dice);
    let times: Vec<_> = lines.iter().filter(|line| line.code >= 9 && line.code != 29).filter_map(|line| line.time).collect();
    if times.is_empty() {
        return;
    }
    let step = dice.pick(&[0, 0, 1, SECOND, 60 * SECOND, DAY]);
    let other = dice.pick(&times);
    let days = dice.pick(&[Days::Plain, Days::Long]);
    let time = if dice.percent(50) { other.plus(days, step) } else { other.minus(days, step) };
    let Some(line) = any_line(lines, dice, |line| line.time.is_some()) else { return };
    set_time(line, time, dice);
}

/// Gives a line another time, written in either form.
fn set_time(line: &mut Line, time: Time, dice: &mut Dice) {
    line.time = Some(time);
    set_epoch(line, time.any_text(dice));
}

fn set_epoch(line: &mut Line, text: String) {
    match &mut line.part {
        Part::Assign { value, .. } => *value = text,
        Part::Data(fields) if !fields.is_empty() => fields[0] = text,
        _ => {}
    }
}

/// Second 60 of a time's day, with or without a fraction.
fn sixty_of(time: Time, dice: &mut Dice) -> Time {
    time.in_day(DAY + any_part(dice))
}

/// The time system that a line names.
fn system_named(line: &Line) -> Option<&str> {
    match &line.part {
        Part::Assign { word, value, .. } if word == "TIME_SYSTEM" => Some(value),
        _ => None,
    }
}

/// For each line whether the system named last is UTC.
fn under_utc(lines: &[Line]) -> Vec<bool> {
    let mut utc = false;
    let under = |line| {
        utc = system_named(line).map_or(utc, |system| system == "UTC");
        utc
    };
    lines.iter().map(under).collect()
}

/// The place and time of a line that has one and passes the test.
fn any_timed(lines: &[Line], dice: &mut Dice, test: impl Fn(usize, u32, Time) -> bool) -> Option<(usize, Time)> {
    let timed = (0..lines.len()).filter_map(|at| lines[at].time.map(|time| (at, time)));
    let mut found: Vec<(usize, Time)> = timed.filter(|(at, time)| test(*at, lines[*at].code, *time)).collect();
    let last = lines[found.last()?.0].group;
    // A later segment has more systems before it that may be taken for its own.
    if dice.percent(50) {
        found.retain(|(at, _)| lines[*at].group == last);
    }
    // Every code is as likely, though data lines are many.
    let mut codes: Vec<u32> = found.iter().map(|(at, _)| lines[*at].code).collect();
    codes.sort_unstable();
    codes.dedup();
    let code = dice.pick(&codes);
    found.retain(|(at, _)| lines[*at].code == code);
    Some(dice.pick(&found))
}

/// Puts second 60, at its right clock, where the time system is not UTC.
fn stray_sixty(draft: &mut Draft, dice: &mut Dice) {
    let lines = any_message(draft, dice);
    let utc = under_utc(lines);
    let Some((at, time)) = any_timed(lines, dice, |at, code, _| code != 2 && !utc[at]) else { return };
    let time = sixty_of(time, dice);
    set_time(&mut lines[at], time, dice);
}

/// Names another system than UTC before an epoch at second 60; if there is none, one is put there.
fn leave_utc(draft: &mut Draft, dice: &mut Dice) {
    let lines = any_message(draft, dice);
    let utc = under_utc(lines);
    let told = |at: usize, code: u32| code != 2 && utc[at];
    let found = any_timed(lines, dice, |at, code, time| told(at, code) && time.is_at_second_60());
    let Some((at, time)) = found.or_else(|| any_timed(lines, dice, |at, code, _| told(at, code))) else { return };
    if found.is_none() {
        let time = sixty_of(time, dice);
        set_time(&mut lines[at], time, dice);
    }
    let system = lines[..at].iter_mut().rev().find(|line| system_named(line).is_some());
    if let Some(Line { part: Part::Assign { value, .. }, .. }) = system {
        *value = dice.pick(&OTHER_SYSTEMS).to_string();
    }
}

/// Clocks with a second 60 that is not at 23:59, or with a second past it.
const WRONG_CLOCKS: [&str; 11] =
    ["22:59:60", "23:58:60", "00:00:60", "12:59:60", "23:00:60", "03:59:60", "24:59:60", "23:60:60", "23:59:61", "23:59:69", "23:59:99"];

fn wrong_sixty(draft: &mut Draft, dice: &mut Dice) {
    let lines = any_message(draft, dice);
    let Some((at, time)) = any_timed(lines, dice, |_, _, _| true) else { return };
    let text = sixty_of(time, dice).any_text(dice).replace("23:59:60", dice.pick(&WRONG_CLOCKS));
    set_epoch(&mut lines[at], text);
}

/// Moves a time to second 60 of its day where that may stand; the order of times may suffer.
fn move_to_sixty(draft: &mut Draft, dice: &mut Dice) {
    let lines = any_message(draft, dice);
    let utc = under_utc(lines);
    let Some((at, time)) = any_timed(lines, dice, |at, code, _| code == 2 || utc[at]) else { return };
    let time = sixty_of(time, dice);
    set_time(&mut lines[at], time, dice);
}

/// Takes one of the two lines of interpolation from a segment that has both.
fn part_interpolation(draft: &mut Draft, dice: &mut Dice) {
    let lines = any_message(draft, dice);
    if let Some(at) = any_place(lines, dice, |line| matches!(line.code, 42 | 43)) {
        lines.remove(at);
    }
}

fn cut_message(draft: &mut Draft, dice: &mut Dice) {
    let lines = any_message(draft, dice);
    let keep = dice.between(1, lines.len().max(1));
    lines.truncate(keep);
}

const COMMENTS: [&[u8]; 10] = [
    b"COMMENT", b"  COMMENT  ", b"COMMENT a = b", b"COMMENT META_START", b"COMMENT $ITIM  = 1998 OCT 09", b"COMMENT=x", b"COMMENTS",
    b"comment a b c d e f", b"COMMENT CCSDS_OPM_VERS = 1.0", b"COMMENT 1 2 3 4 5 6",
];

fn add_comment(draft: &mut Draft, dice: &mut Dice) {
    let comment = raw(dice.pick(&COMMENTS));
    let lines = any_message(draft, dice);
    let data: Vec<usize> = (0..lines.len()).filter(|at| matches!(lines[*at].part, Part::Data(_))).collect();
    // Before a data line is where a comment can do harm.
    if !data.is_empty() && dice.percent(60) {
        lines.insert(data[dice.below(data.len())], comment);
    } else {
        let at = dice.between(0, lines.len());
        lines.insert(at, comment);
    }
}

fn lengthen_line(draft: &mut Draft, dice: &mut Dice) {
    let size = dice.pick(&[253, 254, 255, 255, 256, 256, 300, 1000]);
    let lines = any_message(draft, dice);
    if let Some(line) = any_line(lines, dice, |_| true) {
        line.stretch = size;
        if dice.percent(30) {
            let (mut text, _) = line_text(line);
            // Half of these have a bad byte as well, which LONG must hide.
            text.iter_mut().rev().take(3).for_each(|byte| *byte = dice.pick(b"z\x7f"));
            line.part = Part::Raw(text);
        }
    }
}

fn spoil_byte(draft: &mut Draft, dice: &mut Dice) {
    let bad = dice.pick(&[0, 9, 9, 11, 12, 26, 27, 31, 127, 128, 160, 255]);
    let lines = any_message(draft, dice);
    if let Some(line) = any_line(lines, dice, |_| true) {
        let (mut text, _) = line_text(line);
        text.insert(dice.between(0, text.len()), bad);
        line.part = Part::Raw(text);
        line.stretch = 0;
    }
}

const FORMLESS: [&[u8]; 10] = [
    b"X", b"COMMENT", b"META_START x", b"META_STOP META_STOP", b"2000-01-01T00:00:00 1 2 3 4 5", b"2000-01-01T00:00:00 1 2 3 4 5 6",
    b"2000-01-01T00:00:00 1 2 3 4 5 6 7", b"< intervening data records omitted here >", b"OBJECT_NAME", b"1 2 3 4 5 6 7",
];

fn add_formless(draft: &mut Draft, dice: &mut Dice) {
    let line = if dice.percent(70) { raw(dice.pick(&FORMLESS)) } else { raw(any_text(dice).as_bytes()) };
    add_line(draft, dice, line);
}

const HEADINGS: [&[u8]; 8] = [
    b"CCSDS_OPM_VERS = 1.0", b"CCSDS_OEM_VERS=1.0", b"  CCSDS_OPM_VERS   =2.0", b"CCSDS_OEM_VERS =", b"CCSDS_OPM_VERS = 1.0\x00",
    b"CCSDS_OEM_VERS", b"CCSDS_OEM_VERS == 1.0", b"CCSDS_OPM_VERS = 1.0 [KM]",
];

/// Puts a heading where one may not be looked for, or in place of a message's own.
fn add_heading(draft: &mut Draft, dice: &mut Dice) {
    let line = raw(dice.pick(&HEADINGS));
    if dice.percent(50) {
        add_line(draft, dice, line);
    } else if let Some(first) = any_message(draft, dice).first_mut() {
        *first = line;
    }
}

fn change_mark(draft: &mut Draft, dice: &mut Dice) {
    let new = dice.pick(&[
        "META_START", "META_STOP", "meta_start", "META_START =", "META_STOP=1", "META_STOP x", "META _STOP", "META_STARTS", "STOP",
    ]);
    let lines = any_message(draft, dice);
    match any_line(lines, dice, |line| matches!(line.part, Part::Mark(_))) {
        Some(line) => line.part = Part::Mark(new.to_string()),
        None => add_line(draft, dice, raw(new.as_bytes())),
    }
}

fn change_fields(draft: &mut Draft, dice: &mut Dice) {
    let lines = any_message(draft, dice);
    let line = any_line(lines, dice, |line| matches!(line.part, Part::Data(_)));
    let Some(Line { part: Part::Data(fields), .. }) = line else { return };
    match dice.below(4) {
        0 => fields.truncate(6),
        1 => fields.push(any_number(dice)),
        2 => fields.swap(0, 1),
        _ => fields.insert(3, "=".to_string()),
    }
}

/// A line of a fresh message of either type.
fn add_stranger(draft: &mut Draft, dice: &mut Dice) {
    let lines = if dice.percent(50) { opm(dice) } else { oem(dice) };
    let line = lines[dice.between(1, lines.len() - 1)].clone();
    add_line(draft, dice, line);
}

fn flip_byte(feed: &mut Vec<u8>, dice: &mut Dice) {
    if !feed.is_empty() {
        let at = dice.below(feed.len());
        feed[at] = if dice.percent(50) { feed[at] ^ (1 << dice.below(8)) } else { dice.byte() };
    }
}

fn drop_bytes(feed: &mut Vec<u8>, dice: &mut Dice) {
    let from = dice.below(feed.len());
    let count = if dice.percent(70) { 1 } else { dice.below(80) };
    feed.drain(from..(from + count).min(feed.len()));
}

fn add_byte(feed: &mut Vec<u8>, dice: &mut Dice) {
    let byte = if dice.percent(50) { dice.pick(b"= .0T\t-") } else { dice.byte() };
    feed.insert(dice.between(0, feed.len()), byte);
}

fn add_ending(feed: &mut Vec<u8>, dice: &mut Dice) {
    let at = dice.between(0, feed.len());
    let ending = dice.pick(&ENDINGS);
    feed.splice(at..at, ending.iter().copied());
}

fn cut_feed(feed: &mut Vec<u8>, dice: &mut Dice) {
    let keep = dice.between(0, feed.len());
    feed.truncate(keep);
}

fn double_bytes(feed: &mut Vec<u8>, dice: &mut Dice) {
    let from = dice.below(feed.len());
    let to = (from + dice.below(200)).min(feed.len());
    let part = feed[from..to].to_vec();
    feed.splice(from..from, part);
}

/// Fills a draft's last message with blank lines or comments, so that the feed has close to so many bytes.
pub fn fill(draft: &mut Draft, dice: &mut Dice, written: usize, wanted: usize) {
    draft.ending = Ending::Always(b"\n");
    draft.open_end = false;
    let width = dice.pick(&[0, 1, 60, 200, 254]);
    let comment = dice.percent(40) && width >= 60;
    let text = if comment { [b"COMMENT ".to_vec(), vec![b'x'; width - 8]].concat() } else { vec![b' '; width] };
    let count = wanted.saturating_sub(written) / (width + 1);
    if let Some(lines) = draft.messages.last_mut() {
        lines.extend((0..count).map(|_| raw(&text)));
    }
}

#[cfg(test)]
mod tests {
    use super::*;
    use crate::judge::{judge, Answer, Reason};
    use crate::make::{draft, write};

    #[test]
    fn every_harm_takes_any_draft() {
        let empty = of_one(Vec::new());
        for turn in 0..50 {
            for harm in HARMS {
                let mut dice = Dice::new(3, turn);
                harm(&mut empty.clone(), &mut dice);
                let mut sound = draft(&mut dice);
                harm(&mut sound, &mut dice);
                write(&sound, &mut dice);
            }
        }
    }

    /// A draft of one message and no more.
    fn of_one(lines: Vec<Line>) -> Draft {
        Draft { before: Vec::new(), messages: vec![lines], ending: Ending::Always(b"\n"), open_end: false }
    }

    /// What sound messages of one type come to by a harm, each with whether the harm found something to do.
    fn harmed(harm: fn(&mut Draft, &mut Dice), make: fn(&mut Dice) -> Vec<Line>, seed: u64) -> Vec<(bool, Option<Reason>)> {
        let one = |turn| {
            let mut dice = Dice::new(seed, turn);
            let mut draft = of_one(make(&mut dice));
            let before = write(&draft, &mut dice).feed;
            harm(&mut draft, &mut dice);
            let after = write(&draft, &mut dice).feed;
            let reason = match judge(&after, 1) {
                Answer::Accepted(_) => None,
                Answer::Refused { reason, .. } => Some(reason),
            };
            (before != after, reason)
        };
        (0..300).map(one).collect()
    }

    /// How many messages were harmed; each must be refused for this reason, and every other one accepted.
    fn refused_for(reason: Reason, answers: &[(bool, Option<Reason>)]) -> usize {
        answers.iter().for_each(|(changed, got)| assert_eq!(*got, changed.then_some(reason)));
        answers.iter().filter(|(changed, _)| *changed).count()
    }

    #[test]
    fn a_second_60_out_of_place_is_a_wrong_value() {
        let seed = 31;
        for make in [opm, oem] {
            for harm in [stray_sixty, leave_utc, wrong_sixty] {
                assert!(refused_for(Reason::Value, &harmed(harm, make, seed)) > 100, "seed {seed}");
            }
        }
    }

    #[test]
    fn a_move_to_second_60_breaks_the_order_of_times_at_most() {
        let seed = 37;
        for make in [opm, oem] {
            let answers = harmed(move_to_sixty, make, seed);
            assert!(answers.iter().all(|(_, reason)| matches!(reason, None | Some(Reason::TimeOrder))), "seed {seed}");
            assert!(answers.iter().filter(|(changed, reason)| *changed && reason.is_none()).count() > 50, "seed {seed}");
        }
    }

    #[test]
    fn one_line_of_interpolation_alone_is_out_of_order() {
        let seed = 53;
        assert!(refused_for(Reason::Order, &harmed(part_interpolation, oem, seed)) > 150, "seed {seed}");
        assert_eq!(refused_for(Reason::Order, &harmed(part_interpolation, opm, seed)), 0, "seed {seed}");
    }

    #[test]
    fn either_line_of_interpolation_is_taken() {
        let seed = 59;
        let mut taken = [0, 0];
        for turn in 0..300 {
            let mut dice = Dice::new(seed, turn);
            let mut draft = of_one(oem(&mut dice));
            let count = |draft: &Draft| [42, 43].map(|code| draft.messages[0].iter().filter(|line| line.code == code).count());
            let before = count(&draft);
            part_interpolation(&mut draft, &mut dice);
            let after = count(&draft);
            (0..2).for_each(|at| taken[at] += before[at] - after[at]);
        }
        assert!(taken.iter().all(|count| *count > 75), "seed {seed}: INTERPOLATION and degree taken {taken:?} times");
    }

    #[test]
    fn every_byte_harm_takes_any_feed() {
        for turn in 0..50 {
            for harm in BYTE_HARMS {
                for feed in [&b""[..], b"a", b"ab\ncd\n"] {
                    harm(&mut feed.to_vec(), &mut Dice::new(3, turn));
                }
            }
        }
    }
}
