//! Makes sound feeds, with all optional parts varied, and foretells the rows of each message.
//! The keywords and units stand here a second time, so that a slip in the judge's list shows.

use crate::clock::{any_time, day_end, Days, Time, SECOND};
use crate::dice::Dice;
use crate::judge::Row;

/// What a line is made of.
#[derive(Clone, Debug)]
pub enum Part {
    Assign { word: String, value: String, unit: String },
    Comment(String),
    Mark(String),
    Data(Vec<String>),
    Blank,
    Raw(Vec<u8>),
}

/// A line before it is written.
#[derive(Clone, Debug)]
pub struct Line {
    pub part: Part,
    pub code: u32,
    pub group: u32,
    /// The time that the line's epoch says, if it has one.
    pub time: Option<Time>,
    /// Blanks before the text, around `=`, between fields, before a unit, and after the text.
    pub blanks: [usize; 5],
    /// Blanks are added at the end up to this many bytes.
    pub stretch: usize,
}

/// How the lines of a feed end.
#[derive(Clone, Copy, Debug, PartialEq, Eq)]
pub enum Ending {
    Always(&'static [u8]),
    Mixed,
}

/// A feed before it is written.
#[derive(Clone, Debug)]
pub struct Draft {
    /// Bytes before the first heading; if there are any, they end with a line ending.
    pub before: Vec<u8>,
    pub messages: Vec<Vec<Line>>,
    pub ending: Ending,
    /// Whether the last line goes without an ending.
    pub open_end: bool,
}

pub const ENDINGS: [&[u8]; 4] = [b"\n", b"\r", b"\r\n", b"\n\r"];

const HEADER: [(u32, &str); 2] = [(2, "CREATION_DATE"), (3, "ORIGINATOR")];
const OBJECT: [(u32, &str); 4] = [(4, "OBJECT_NAME"), (5, "OBJECT_ID"), (6, "CENTER_NAME"), (7, "REF_FRAME")];
const STATE: [(u32, &str, &str); 6] =
    [(10, "X", "[KM]"), (11, "Y", "[KM]"), (12, "Z", "[KM]"), (13, "X_DOT", "[KM/S]"), (14, "Y_DOT", "[KM/S]"), (15, "Z_DOT", "[KM/S]")];
const KEPLER: [(u32, &str, &str); 5] = [
    (16, "SEMI_MAJOR_AXIS", "[KM]"),
    (17, "ECCENTRICITY", ""),
    (18, "INCLINATION", "[DEG]"),
    (19, "RA_OF_ASC_NODE", "[DEG]"),
    (20, "ARG_OF_PERICENTER", "[DEG]"),
];
const ANOMALIES: [(u32, &str, &str); 2] = [(21, "TRUE_ANOMALY", "[DEG]"), (22, "MEAN_ANOMALY", "[DEG]")];
const CRAFT: [(u32, &str, &str); 5] = [
    (24, "MASS", "[KG]"),
    (25, "SOLAR_RAD_AREA", "[M**2]"),
    (26, "SOLAR_RAD_COEFF", ""),
    (27, "DRAG_AREA", "[M**2]"),
    (28, "DRAG_COEFF", ""),
];
const THRUST: [(u32, &str, &str); 3] = [(33, "MAN_DV_1", "[KM/S]"), (34, "MAN_DV_2", "[KM/S]"), (35, "MAN_DV_3", "[KM/S]")];

/// A sound feed of one message or more.
pub fn draft(dice: &mut Dice) -> Draft {
    let count = dice.pick(&[1, 1, 1, 1, 2, 2, 3, 5]);
    let messages = (0..count).map(|_| if dice.percent(45) { opm(dice) } else { oem(dice) }).collect();
    let ending = if dice.percent(40) { Ending::Mixed } else { Ending::Always(dice.pick(&ENDINGS)) };
    let before = if dice.percent(25) { garbage(dice) } else { Vec::new() };
    Draft { before, messages, ending, open_end: dice.percent(25) }
}

/// Builds a message line by line, with comments and blank lines strewn in.
struct Maker<'d> {
    dice: &'d mut Dice,
    lines: Vec<Line>,
    group: u32,
    /// How many in a hundred lines have a comment before them.
    comments: usize,
    /// How many in a hundred lines have a blank line before them.
    gaps: usize,
    /// Whether blanks are strewn freely.
    loose: bool,
    /// Which days the time system has that was named last; a creation date may stand at second 60 under any.
    days: Days,
}

impl<'d> Maker<'d> {
    fn new(dice: &'d mut Dice) -> Maker<'d> {
        let comments = dice.pick(&[0, 0, 5, 20]);
        let gaps = dice.pick(&[0, 5, 30]);
        let loose = dice.percent(50);
        Maker { dice, lines: Vec::new(), group: 0, comments, gaps, loose, days: Days::Long }
    }

    fn add(&mut self, code: u32, part: Part, time: Option<Time>) {
        let blanks = if self.loose { any_blanks(self.dice) } else { [0, 1, 1, 1, 0] };
        let stretch = if self.dice.percent(1) { self.dice.between(250, 254) } else { 0 };
        self.lines.push(Line { part, code, group: self.group, time, blanks, stretch });
    }

    /// Blank lines and comments before the next line; between data lines a comment may not stand.
    fn strew(&mut self, comments_too: bool) {
        while self.dice.percent(self.gaps) {
            self.add(0, Part::Blank, None);
        }
        while comments_too && self.dice.percent(self.comments) {
            let text = if self.dice.percent(15) { String::new() } else { any_text(self.dice) };
            self.add(45, Part::Comment(text), None);
        }
    }

    fn assign(&mut self, code: u32, word: &str, value: String, unit: &str) {
        self.strew(true);
        self.add(code, assigned(word, value, unit), None);
    }

    fn text(&mut self, code: u32, word: &str) {
        let value = any_text(self.dice);
        self.assign(code, word, value, "");
    }

    fn number(&mut self, (code, word, unit): (u32, &str, &str)) {
        let value = any_number(self.dice);
        let unit = if self.dice.percent(50) { unit } else { "" };
        self.assign(code, word, value, unit);
    }

    fn epoch(&mut self, code: u32, word: &str, time: Time) {
        self.strew(true);
        let value = time.any_text(self.dice);
        self.add(code, assigned(word, value, ""), Some(time));
    }

    fn mark(&mut self, code: u32, word: &str) {
        self.strew(true);
        self.add(code, Part::Mark(word.to_string()), None);
    }

    fn data(&mut self, time: Time) {
        let mut fields = vec![time.any_text(self.dice)];
        fields.extend((0..6).map(|_| any_number(self.dice)));
        self.add(9, Part::Data(fields), Some(time));
    }

    /// The heading and the two lines after it; no comment stands before a heading.
    fn header(&mut self, code: u32, word: &str) {
        self.add(code, assigned(word, "1.0".to_string(), ""), None);
        let time = any_time(self.dice, Days::Long);
        self.epoch(HEADER[0].0, HEADER[0].1, time);
        self.text(HEADER[1].0, HEADER[1].1);
    }

    fn object(&mut self) {
        OBJECT.iter().for_each(|(code, word)| self.text(*code, word));
        let system = any_system(self.dice);
        self.days = if system == "UTC" { Days::Long } else { Days::Plain };
        self.assign(8, "TIME_SYSTEM", system, "");
    }

    fn kepler(&mut self) {
        KEPLER.iter().for_each(|entry| self.number(*entry));
        let anomaly = self.dice.pick(&ANOMALIES);
        self.number(anomaly);
        self.number((23, "GM", "[KM**3/S**2]"));
    }

    fn burn(&mut self) {
        self.strew(true);
        self.group += 1;
        let time = any_time(self.dice, self.days);
        let value = time.any_text(self.dice);
        self.add(29, assigned("MAN_EPOCH_IGNITION", value, ""), Some(time));
        self.number((30, "MAN_DURATION", "[S]"));
        self.number((31, "MAN_DELTA_MASS", "[KG]"));
        self.text(32, "MAN_REF_FRAME");
        THRUST.iter().for_each(|entry| self.number(*entry));
    }

    /// A segment, with so many states if that is asked for.
    fn segment(&mut self, states: Option<usize>) {
        self.strew(true);
        self.group += 1;
        self.add(37, Part::Mark("META_START".to_string()), None);
        self.object();
        let span = match states {
            Some(count) => long_span(self.dice, self.days, count),
            None if self.dice.percent(MIDNIGHTS) => midnight(self.dice, self.days),
            None => span(self.dice, self.days),
        };
        self.epoch(38, "START_TIME", span.start);
        if let Some(time) = span.useable_start {
            self.epoch(39, "USEABLE_START_TIME", time);
        }
        if let Some(time) = span.useable_stop {
            self.epoch(40, "USEABLE_STOP_TIME", time);
        }
        self.epoch(41, "STOP_TIME", span.stop);
        self.interpolation();
        self.mark(44, "META_STOP");
        for (at, time) in span.data.into_iter().enumerate() {
            self.strew(at == 0);
            self.data(time);
        }
    }

    /// Both lines or neither, since one alone is out of order.
    fn interpolation(&mut self) {
        if self.dice.percent(50) {
            self.text(42, "INTERPOLATION");
            let value = any_integer(self.dice);
            self.assign(43, "INTERPOLATION_DEGREE", value, "");
        }
    }
}

fn assigned(word: &str, value: String, unit: &str) -> Part {
    Part::Assign { word: word.to_string(), value, unit: unit.to_string() }
}

/// A sound OPM.
pub fn opm(dice: &mut Dice) -> Vec<Line> {
    let mut maker = Maker::new(dice);
    maker.header(1, "CCSDS_OPM_VERS");
    maker.object();
    let time = any_time(maker.dice, maker.days);
    maker.epoch(9, "EPOCH", time);
    STATE.iter().for_each(|entry| maker.number(*entry));
    if maker.dice.percent(50) {
        maker.kepler();
    }
    CRAFT.iter().for_each(|entry| maker.number(*entry));
    for _ in 0..maker.dice.pick(&[0, 0, 1, 2, 4]) {
        maker.burn();
    }
    maker.strew(true);
    maker.lines
}

/// A sound OEM.
pub fn oem(dice: &mut Dice) -> Vec<Line> {
    let mut maker = Maker::new(dice);
    maker.header(36, "CCSDS_OEM_VERS");
    for _ in 0..maker.dice.pick(&[1, 1, 2, 2, 3]) {
        maker.segment(None);
    }
    maker.strew(true);
    maker.lines
}

/// A sound OEM of one segment with so many states.
fn long_oem(dice: &mut Dice, states: usize) -> Vec<Line> {
    let mut maker = Maker::new(dice);
    maker.header(36, "CCSDS_OEM_VERS");
    maker.segment(Some(states));
    maker.strew(true);
    maker.lines
}

/// Gives a message of a sound draft more lines than 16 bits count, or more rows; it stays sound.
pub fn lengthen(draft: &mut Draft, dice: &mut Dice) {
    let at = dice.below(draft.messages.len());
    let lines = &mut draft.messages[at];
    let count = dice.between(65_300, 66_300);
    let line = |part, code| Line { part, code, group: 0, time: None, blanks: [0, 1, 1, 1, 0], stretch: 0 };
    match dice.below(3) {
        // Blank lines may stand anywhere, and comments right after the heading.
        0 => {
            let place = dice.between(1, lines.len());
            lines.splice(place..place, (0..count).map(|_| line(Part::Blank, 0)));
        }
        1 => {
            let texts: Vec<String> = (0..count).map(|_| digits(dice, 3)).collect();
            lines.splice(1..1, texts.into_iter().map(|text| line(Part::Comment(text), 45)));
        }
        _ => *lines = long_oem(dice, count / 7),
    }
}

/// The times of a segment.
struct Span {
    start: Time,
    useable_start: Option<Time>,
    useable_stop: Option<Time>,
    stop: Time,
    data: Vec<Time>,
}

fn span(dice: &mut Dice, days: Days) -> Span {
    // Whole days keep the clock, so data that begins at second 60 may stay there day after day.
    let step = dice.pick(&[1, 1000, SECOND / 2, SECOND, 60 * SECOND, days.length(), 31 * days.length()]);
    let count = dice.pick(&[1, 1, 2, 3, 5, 8, 20]);
    stepped(dice, days, step, count)
}

/// So many states that they last a month at most, since time ends with the year 9999.
fn long_span(dice: &mut Dice, days: Days, count: usize) -> Span {
    let step = dice.pick(&[1, 1000, SECOND / 2, SECOND, 60 * SECOND]);
    stepped(dice, days, step, count)
}

/// Data at steps of a length, at times two or three of them.
fn stepped(dice: &mut Dice, days: Days, step: u128, count: usize) -> Span {
    let mut data = vec![any_time(dice, days)];
    for at in 1..count {
        data.push(data[at - 1].plus(days, step * dice.between(1, 3) as u128));
    }
    let start = data[0].minus(days, step * dice.below(3) as u128);
    let stop = data[count - 1].plus(days, step * dice.below(3) as u128);
    let inner = [within(dice, days, start, stop), within(dice, days, start, stop)];
    bounded(dice, start, inner, stop, data)
}

/// A time from one to the other, often one of the two.
fn within(dice: &mut Dice, days: Days, start: Time, stop: Time) -> Time {
    let part = dice.pick(&[0, 1, 2, 3, 4]);
    start.plus(days, start.until(stop, days) * part / 4)
}

/// So many in a hundred segments lie about the end of one day, where second 60 has its neighbours.
const MIDNIGHTS: usize = 10;

fn midnight(dice: &mut Dice, days: Days) -> Span {
    let times = day_end(any_time(dice, days), days);
    let start = dice.below(times.len());
    let stop = dice.between(start, times.len() - 1);
    let mut data: Vec<Time> = times[start..=stop].iter().copied().filter(|_| dice.percent(60)).collect();
    if data.is_empty() {
        data.push(times[dice.between(start, stop)]);
    }
    let inner = [times[dice.between(start, stop)], times[dice.between(start, stop)]];
    bounded(dice, times[start], inner, times[stop], data)
}

/// A segment's times with one, both or none of the useable ones, which lie between the bounds in any order.
fn bounded(dice: &mut Dice, start: Time, mut inner: [Time; 2], stop: Time, data: Vec<Time>) -> Span {
    inner.sort();
    let useable_start = dice.percent(50).then_some(inner[0]);
    let useable_stop = dice.percent(50).then_some(inner[1]);
    Span { start, useable_start, useable_stop, stop, data }
}

/// Time systems other than UTC, some of them nearly UTC.
pub const OTHER_SYSTEMS: [&str; 16] =
    ["TAI", "TAI", "TT", "GPS", "UT1", "utc", "Utc", "UT", "UTC1", "UTC.", "UTC 1", "UTC UTC", "1 UTC", "TUTC", "=UTC", "UTC="];

fn any_system(dice: &mut Dice) -> String {
    match dice.below(100) {
        0..=49 => "UTC".to_string(),
        50..=84 => dice.pick(&OTHER_SYSTEMS).to_string(),
        _ => any_text(dice),
    }
}

fn any_blanks(dice: &mut Dice) -> [usize; 5] {
    std::array::from_fn(|_| if dice.percent(2) { 20 } else { dice.pick(&[0, 0, 1, 1, 2, 5]) })
}

/// A text of printable bytes that begins and ends with none blank.
pub fn any_text(dice: &mut Dice) -> String {
    let size = if dice.percent(5) { dice.between(1, 60) } else { dice.between(1, 12) };
    let text: String = (0..size).map(|_| if dice.percent(10) { ' ' } else { char::from(dice.between(33, 126) as u8) }).collect();
    let trimmed = text.trim_matches(' ');
    if trimmed.is_empty() {
        "EARTH".to_string()
    } else {
        trimmed.to_string()
    }
}

fn digits(dice: &mut Dice, count: usize) -> String {
    (0..count).map(|_| char::from(b'0' + dice.below(10) as u8)).collect()
}

fn sign(dice: &mut Dice) -> &'static str {
    dice.pick(&["", "", "-", "+"])
}

/// A number in one of its forms, at times as long as it may be.
pub fn any_number(dice: &mut Dice) -> String {
    let sign = sign(dice);
    let most = if dice.percent(10) { 16 } else { 8 };
    match dice.below(4) {
        0 => {
            let count = dice.between(1, most);
            format!("{sign}{}", digits(dice, count))
        }
        1 | 2 => {
            let whole = dice.between(1, most - 1);
            let part = if dice.percent(20) { most - whole } else { dice.between(1, most - whole) };
            format!("{sign}{}.{}", digits(dice, whole), digits(dice, part))
        }
        _ => exponential(dice, sign, most - 1),
    }
}

fn exponential(dice: &mut Dice, sign: &str, most: usize) -> String {
    let part = dice.between(1, most);
    let power = dice.between(1, 3);
    let mark = if dice.percent(50) { 'E' } else { 'e' };
    let power_sign = self::sign(dice);
    format!("{sign}{}.{}{mark}{power_sign}{}", digits(dice, 1), digits(dice, part), digits(dice, power))
}

/// An integer, at times at the end of its range.
pub fn any_integer(dice: &mut Dice) -> String {
    if dice.percent(20) {
        return dice.pick(&["2147483647", "-2147483648", "+00", "-0", "0000000000000002147483647"]).to_string();
    }
    let count = dice.between(1, 9);
    format!("{}{}", sign(dice), digits(dice, count))
}

/// Bytes before the first heading: lines of any bytes, and lines that are nearly headings.
fn garbage(dice: &mut Dice) -> Vec<u8> {
    const NEARLY: [&[u8]; 6] = [
        b"CCSDS_OPM_VERS", b"CCSDS_OMM_VERS = 1.0", b"\tCCSDS_OEM_VERS = 1.0", b"xCCSDS_OPM_VERS=1.0", b"COMMENT CCSDS_OEM_VERS = 1.0",
        b"CCSDS_OEM_VERS 1.0 =",
    ];
    let mut out = Vec::new();
    for _ in 0..dice.between(1, 4) {
        if dice.percent(30) {
            out.extend_from_slice(dice.pick(&NEARLY));
        } else {
            let size = if dice.percent(10) { 300 } else { dice.below(40) };
            out.extend((0..size).map(|_| dice.byte()));
        }
        out.extend_from_slice(dice.pick(&ENDINGS));
    }
    out
}

/// The bytes of a line without its ending, and where its values stand in it.
pub fn line_text(line: &Line) -> (Vec<u8>, Vec<(u32, usize, usize)>) {
    let mut out = vec![b' '; line.blanks[0]];
    let mut values = Vec::new();
    match &line.part {
        Part::Assign { word, value, unit } => write_assignment(&mut out, &mut values, line, [word, value, unit]),
        Part::Comment(text) => write_comment(&mut out, &mut values, line, text),
        Part::Mark(word) => {
            out.extend_from_slice(word.as_bytes());
            values.push((line.code, out.len(), 0));
        }
        Part::Data(fields) => write_data(&mut out, &mut values, line, fields),
        Part::Blank => {}
        Part::Raw(bytes) => out.clone_from(bytes),
    }
    if !matches!(line.part, Part::Raw(_)) {
        push_blanks(&mut out, line.blanks[4]);
    }
    let missing = line.stretch.saturating_sub(out.len());
    push_blanks(&mut out, missing);
    (out, values)
}

fn push_blanks(out: &mut Vec<u8>, count: usize) {
    out.resize(out.len() + count, b' ');
}

fn write_assignment(out: &mut Vec<u8>, values: &mut Vec<(u32, usize, usize)>, line: &Line, [word, value, unit]: [&str; 3]) {
    out.extend_from_slice(word.as_bytes());
    push_blanks(out, line.blanks[1]);
    out.push(b'=');
    push_blanks(out, line.blanks[2]);
    values.push((line.code, out.len(), value.len()));
    out.extend_from_slice(value.as_bytes());
    if !unit.is_empty() {
        push_blanks(out, line.blanks[3].max(1));
        out.extend_from_slice(unit.as_bytes());
    }
}

fn write_comment(out: &mut Vec<u8>, values: &mut Vec<(u32, usize, usize)>, line: &Line, text: &str) {
    out.extend_from_slice(b"COMMENT");
    if !text.is_empty() {
        push_blanks(out, line.blanks[1].max(1));
    }
    values.push((45, out.len(), text.len()));
    out.extend_from_slice(text.as_bytes());
}

fn write_data(out: &mut Vec<u8>, values: &mut Vec<(u32, usize, usize)>, line: &Line, fields: &[String]) {
    for (at, field) in fields.iter().enumerate() {
        if at > 0 {
            push_blanks(out, line.blanks[1 + at % 3].max(1));
        }
        values.push((9 + at as u32, out.len(), field.len()));
        out.extend_from_slice(field.as_bytes());
    }
}

/// A written feed, with the rows foretold for each message.
pub struct Written {
    pub feed: Vec<u8>,
    pub rows: Vec<Vec<Row>>,
    /// Where each line of each message is, and at the end of each message where a line more would be.
    pub spots: Vec<Vec<Spot>>,
}

/// The number of a line within its message, and where it begins in the feed.
#[derive(Clone, Copy, Debug, PartialEq, Eq)]
pub struct Spot {
    pub line: usize,
    pub start: usize,
}

/// Writes bytes and counts lines byte by byte, unlike the judge, which looks for endings.
struct Writer {
    out: Vec<u8>,
    ended: usize,
    /// A single CR or LF just written, which the other one would still join.
    open: Option<u8>,
}

impl Writer {
    fn push(&mut self, byte: u8) {
        self.open = match (byte, self.open) {
            (b'\n', Some(b'\r')) | (b'\r', Some(b'\n')) => None,
            (b'\n' | b'\r', _) => {
                self.ended += 1;
                Some(byte)
            }
            _ => None,
        };
        self.out.push(byte);
    }

    fn push_all(&mut self, bytes: &[u8]) {
        bytes.iter().for_each(|byte| self.push(*byte));
    }

    /// Where the next byte goes, in a message that began after so many endings.
    fn spot(&self, heading: usize) -> Spot {
        Spot { line: self.ended - heading + 1, start: self.out.len() }
    }
}

/// Writes a draft.
pub fn write(draft: &Draft, dice: &mut Dice) -> Written {
    let mut writer = Writer { out: Vec::new(), ended: 0, open: None };
    writer.push_all(&draft.before);
    let (mut rows, mut spots) = (Vec::new(), Vec::new());
    for (at, message) in draft.messages.iter().enumerate() {
        let open_end = draft.open_end && at + 1 == draft.messages.len();
        let (of_rows, of_lines) = write_message(&mut writer, message, draft.ending, open_end, dice);
        rows.push(of_rows);
        spots.push(of_lines);
    }
    Written { feed: writer.out, rows, spots }
}

fn write_message(writer: &mut Writer, lines: &[Line], ending: Ending, open_end: bool, dice: &mut Dice) -> (Vec<Row>, Vec<Spot>) {
    let heading = writer.ended;
    let mut rows: Vec<Row> = Vec::new();
    let mut spots = Vec::new();
    for (at, line) in lines.iter().enumerate() {
        let (text, values) = line_text(line);
        let spot = writer.spot(heading);
        spots.push(spot);
        for (code, start, length) in values {
            // A comment takes the group of the row before it.
            let group = if code == 45 { rows.last().map_or(0, |row| row.group) } else { line.group };
            rows.push(Row { code, group, line: spot.line as u32, start: (spot.start + start) as u32, length: length as u32 });
        }
        writer.push_all(&text);
        if open_end && at + 1 == lines.len() {
            break;
        }
        match ending {
            Ending::Always(bytes) => writer.push_all(bytes),
            Ending::Mixed => writer.push_all(dice.pick(&ENDINGS)),
        }
    }
    let end = writer.spot(heading);
    // A line without an ending is a line too, unless it is empty.
    let is_open = writer.out.last().is_some_and(|byte| !matches!(byte, b'\r' | b'\n'));
    spots.push(Spot { line: end.line + usize::from(is_open), ..end });
    (rows, spots)
}

/// What must go out for a message of these lines, by their parts alone; bytes that are no part's have no place in a sound message.
pub fn sent(lines: &[Line]) -> Vec<u8> {
    let mut out: Vec<u8> = Vec::new();
    for line in lines {
        let text = match &line.part {
            Part::Assign { word, value, .. } => format!("{word}={value}"),
            Part::Comment(text) if text.is_empty() => "COMMENT".to_string(),
            Part::Comment(text) => format!("COMMENT {text}"),
            Part::Mark(word) => word.clone(),
            Part::Data(fields) => fields.join(" "),
            Part::Blank | Part::Raw(_) => continue,
        };
        if !out.is_empty() {
            out.push(b'\n');
        }
        out.extend_from_slice(text.as_bytes());
    }
    out
}

#[cfg(test)]
mod tests {
    use super::*;
    use crate::judge::{judge, Answer};
    use crate::send::outgoing;

    #[test]
    fn sound_feeds_are_accepted_with_the_rows_foretold() {
        for turn in 0..300 {
            let mut dice = Dice::new(11, turn);
            let draft = draft(&mut dice);
            let written = write(&draft, &mut dice);
            for (at, rows) in written.rows.iter().enumerate() {
                assert_eq!(judge(&written.feed, at as u64 + 1), Answer::Accepted(rows.clone()), "turn {turn}");
            }
        }
    }

    #[test]
    fn long_feeds_are_accepted_with_the_rows_foretold() {
        let seed = 71;
        let (mut lines, mut rows) = (0, 0);
        for turn in 0..12 {
            let mut dice = Dice::new(seed, turn);
            let mut draft = draft(&mut dice);
            lengthen(&mut draft, &mut dice);
            let written = write(&draft, &mut dice);
            for (message, foretold) in (1..).zip(&written.rows) {
                assert!(judge(&written.feed, message) == Answer::Accepted(foretold.clone()), "seed {seed}, turn {turn}");
                lines += usize::from(foretold.last().is_some_and(|row| row.line > 65_535));
                rows += usize::from(foretold.len() > 65_535);
            }
        }
        assert!(lines > 1 && rows > 1, "seed {seed}: {lines} with lines, {rows} with rows over 65,535");
    }

    #[test]
    fn sound_messages_go_out_as_foretold() {
        let seed = 41;
        for turn in 0..300 {
            let mut dice = Dice::new(seed, turn);
            let draft = draft(&mut dice);
            let feed = write(&draft, &mut dice).feed;
            for (message, lines) in (1..).zip(&draft.messages) {
                assert_eq!(outgoing(&feed, message), Ok(sent(lines)), "seed {seed}, turn {turn}");
            }
        }
    }

    /// The system that each line stands under, as it is written.
    fn systems(lines: &[Line]) -> Vec<&str> {
        let mut under: Vec<&str> = Vec::new();
        for line in lines {
            let before = under.last().copied().unwrap_or_default();
            under.push(match &line.part {
                Part::Assign { word, value, .. } if word == "TIME_SYSTEM" => value,
                _ => before,
            });
        }
        under
    }

    #[test]
    fn second_60_is_made_where_it_may_stand() {
        let seed = 19;
        let mut seen = std::collections::BTreeSet::new();
        for turn in 0..2000 {
            let lines = if turn % 2 == 0 { opm(&mut Dice::new(seed, turn)) } else { oem(&mut Dice::new(seed, turn)) };
            for (line, system) in lines.iter().zip(systems(&lines)) {
                if line.time.is_some_and(Time::is_at_second_60) {
                    assert!(line.code == 2 || system == "UTC", "seed {seed}, turn {turn}");
                    seen.insert((line.code, turn % 2));
                }
            }
        }
        let all = [(2, 0), (2, 1), (9, 0), (9, 1), (29, 0), (38, 1), (39, 1), (40, 1), (41, 1)];
        assert_eq!(seen.into_iter().collect::<Vec<_>>(), all, "seed {seed}");
    }

    #[test]
    fn data_stands_on_both_sides_of_second_60() {
        let seed = 23;
        let (mut into, mut out, mut past) = (0, 0, 0);
        for turn in 0..2000 {
            let lines = oem(&mut Dice::new(seed, turn));
            let data: Vec<Time> = lines.iter().filter(|line| line.code == 9).filter_map(|line| line.time).collect();
            for pair in data.windows(2) {
                let step = pair[0] < pair[1] && pair[0].plus(Days::Long, SECOND) >= pair[1];
                into += usize::from(step && !pair[0].is_at_second_60() && pair[1].is_at_second_60());
                out += usize::from(step && pair[0].is_at_second_60() && !pair[1].is_at_second_60());
                past += usize::from(!step && pair[0].in_day(0) < pair[1].in_day(0) && pair[0].plus(Days::Plain, SECOND) >= pair[1]);
            }
        }
        assert!(into > 20 && out > 20 && past > 20, "seed {seed}: into it {into}, out of it {out}, past it {past}");
    }

    #[test]
    fn segments_change_their_time_systems() {
        let seed = 29;
        let (mut to_utc, mut from_utc) = (0, 0);
        for turn in 0..500 {
            let lines = oem(&mut Dice::new(seed, turn));
            for pair in systems(&lines).windows(2).filter(|pair| !pair[0].is_empty()) {
                to_utc += usize::from(pair[0] != "UTC" && pair[1] == "UTC");
                from_utc += usize::from(pair[0] == "UTC" && pair[1] != "UTC");
            }
        }
        assert!(to_utc > 50 && from_utc > 50, "seed {seed}: to UTC {to_utc}, from UTC {from_utc}");
    }

    #[test]
    fn a_segment_has_both_lines_of_interpolation_or_neither() {
        let seed = 47;
        let (mut both, mut neither, mut parted) = (0, 0, 0);
        for turn in 0..500 {
            for segment in oem(&mut Dice::new(seed, turn)).chunk_by(|_, next| next.code != 37).skip(1) {
                let place = |code| segment.iter().position(|line| line.code == code);
                match (place(42), place(43)) {
                    (Some(method), Some(degree)) => {
                        assert!(method < degree, "seed {seed}, turn {turn}");
                        both += 1;
                        parted += usize::from(degree - method > 1);
                    }
                    (None, None) => neither += 1,
                    _ => panic!("seed {seed}, turn {turn}: one of the two lines alone"),
                }
            }
        }
        assert!(both > 300 && neither > 300 && parted > 50, "seed {seed}: both {both}, neither {neither}, parted {parted}");
    }

    #[test]
    fn lines_are_where_they_were_written() {
        let seed = 79;
        for turn in 0..200 {
            let mut dice = Dice::new(seed, turn);
            let draft = draft(&mut dice);
            let Written { feed, spots, .. } = write(&draft, &mut dice);
            for (lines, spots) in draft.messages.iter().zip(&spots) {
                assert_eq!(spots.len(), lines.len() + 1, "seed {seed}, turn {turn}");
                lines.iter().zip(spots).for_each(|(line, spot)| assert!(feed[spot.start..].starts_with(&line_text(line).0)));
            }
            for (message, spots) in spots.iter().enumerate() {
                let end = spots[spots.len() - 1];
                let count = crate::judge::Feed::new(&feed).lines(message as u64 + 1).count();
                assert_eq!(end.line, count + 1, "seed {seed}, turn {turn}");
            }
        }
    }

    #[test]
    fn the_writer_counts_pairs_once() {
        let mut writer = Writer { out: Vec::new(), ended: 0, open: None };
        writer.push_all(b"a\r\nb\n\rc\n\nd\r\r\n");
        assert_eq!(writer.ended, 6);
    }
}
