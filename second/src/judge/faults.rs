//! Every fault that a message's facts show; the least by line and then by number is the one to name.
//! A fault may be found after an earlier one has spoiled the message: the earlier one is less, so it doesn't matter.
//! For that, what is found at a line must rest on the lines up to it alone.

use super::cut::Cut;
use super::facts::{Fact, What};
use super::order::{fit, Fit};
use super::shape::{moment, Moment};
use super::words::{coded, Wanted, Word, CREATION_DATE, DATA_FIELDS, DATA_LINE, META_START, START_TIME, STOP_TIME, TIME_SYSTEM};
use super::{Kind, Reason};

/// A line of the message, why it offends, and which bytes of the feed do.
/// Of two faults the one at the earlier line is less, then the one with the lesser number, then the one further left.
#[derive(Clone, Copy, Debug, PartialEq, Eq, PartialOrd, Ord)]
pub struct Fault {
    pub line: usize,
    pub reason: Reason,
    pub start: usize,
    pub length: usize,
}

impl Fault {
    fn of(fact: &Fact, reason: Reason, bytes: Cut) -> Fault {
        Fault { line: fact.line, reason, start: bytes.at, length: bytes.text.len() }
    }

    /// A line that is out of order is so as a whole.
    fn of_order(fact: &Fact) -> Fault {
        Fault::of(fact, Reason::Order, fact.text.trimmed())
    }
}

/// Where a message ends: the line that would come next, and its place in the feed.
#[derive(Clone, Copy, Debug)]
pub struct End {
    pub line: usize,
    pub at: usize,
}

/// The fault to name, if there is any.
pub fn least(kind: Kind, facts: &[Fact], end: End) -> Option<Fault> {
    let each_line = facts.iter().flat_map(line_faults);
    let parted = (0..facts.len()).filter_map(|at| parted_data(facts, at));
    let order = order_fault(kind, facts, end);
    let segments = facts.split(|fact| matches!(fact.what, What::Mark(META_START, _)));
    let times = segments.flat_map(time_faults);
    // Each stretch but the first begins with the naming of a system, and hears of no other.
    let stretches = facts.chunk_by(|_, next| system_named(next).is_none());
    let sixties = stretches.flat_map(sixty_faults);
    each_line.chain(parted).chain(order).chain(times).chain(sixties).min()
}

/// Whether the last of these facts would be out of order, whatever else is said of it.
pub fn is_last_out_of_order(kind: Kind, facts: &[Fact]) -> bool {
    let Some((last, at)) = facts.last().zip(facts.len().checked_sub(1)) else { return false };
    let order = order_fault(kind, facts, End { line: last.line + 1, at: 0 });
    parted_data(facts, at).into_iter().chain(order).any(|fault| fault == Fault::of_order(last))
}

/// What a line shows by itself: wrong in form or keyword, value, or unit. A data line may be wrong in each of its fields.
fn line_faults(fact: &Fact) -> Vec<Fault> {
    let fault = |reason, bytes: &Cut| Fault::of(fact, reason, *bytes);
    match &fact.what {
        What::Wrong(reason, bytes) => vec![fault(*reason, bytes)],
        What::Assigned { word, value, .. } if !value_stands(word, value) => vec![fault(Reason::Value, value)],
        What::Assigned { word, rest, .. } if !unit_stands(word, rest) => vec![fault(Reason::Unit, rest)],
        What::Data(fields) => fallen_fields(fields).map(|field| fault(Reason::Value, field)).collect(),
        _ => Vec::new(),
    }
}

fn value_stands(word: &Word, value: &Cut) -> bool {
    word.wanted.is_met_by(value.text)
}

/// Nothing after a number stands always; anything else must be the unit, and a code without one has none to match.
fn unit_stands(word: &Word, rest: &Cut) -> bool {
    match word.wanted {
        Wanted::Number(unit) => rest.text.is_empty() || rest.text == unit.as_bytes(),
        _ => true,
    }
}

fn fallen_fields<'a, 'f>(fields: &'a [Cut<'f>; 7]) -> impl Iterator<Item = &'a Cut<'f>> {
    DATA_FIELDS.iter().zip(fields).filter(|(code, field)| !value_stands(coded((**code).into()), field)).map(|(_, field)| field)
}

/// VALUE for every second 60 in a stretch of facts that does not begin by naming UTC.
/// A stretch may reach into the next segment, but an epoch that stands there before its own system is out of order.
fn sixty_faults(stretch: &[Fact]) -> Vec<Fault> {
    if stretch.first().and_then(system_named) == Some(b"UTC") {
        return Vec::new();
    }
    let told = stretch.iter().filter_map(|fact| told_in_system(fact).map(|epoch| (fact, epoch)));
    let sixties = told.filter(|(_, epoch)| moment(epoch.text).is_some_and(|moment| moment.is_at_second_60()));
    sixties.map(|(fact, epoch)| Fault::of(fact, Reason::Value, epoch)).collect()
}

/// The time system that a fact names, if it names one.
fn system_named<'f>(fact: &Fact<'f>) -> Option<&'f [u8]> {
    match &fact.what {
        What::Assigned { word, value, .. } if word.code == TIME_SYSTEM => Some(value.text),
        _ => None,
    }
}

/// The epoch of a fact, if it is one that the time system speaks of; a creation date isn't.
fn told_in_system<'f>(fact: &Fact<'f>) -> Option<Cut<'f>> {
    match &fact.what {
        What::Assigned { word, value, .. } if word.wanted == Wanted::Epoch && word.code != CREATION_DATE => Some(*value),
        What::Data(fields) => Some(fields[0]),
        _ => None,
    }
}

/// ORDER for a data line when only comments, and one at least, part it from an earlier data line.
fn parted_data(facts: &[Fact], at: usize) -> Option<Fault> {
    if !matches!(facts[at].what, What::Data(_)) {
        return None;
    }
    let comments = facts[..at].iter().rev().take_while(|fact| matches!(fact.what, What::Comment(_))).count();
    let before = facts[..at - comments].last()?;
    let parted = comments > 0 && matches!(before.what, What::Data(_));
    parted.then(|| Fault::of_order(&facts[at]))
}

/// ORDER at the first code out of place, or SHORT after the last line.
fn order_fault(kind: Kind, facts: &[Fact], end: End) -> Option<Fault> {
    let placed: Vec<(&Fact, u8)> = facts.iter().filter_map(|fact| order_code(fact).map(|code| (fact, code))).collect();
    let codes: Vec<u8> = placed.iter().map(|(_, code)| *code).collect();
    match fit(kind, &codes) {
        Fit::Whole => None,
        Fit::Misfit(at) => Some(Fault::of_order(placed[at].0)),
        Fit::Unfinished => Some(Fault { line: end.line, reason: Reason::Short, start: end.at, length: 0 }),
    }
}

/// What a fact counts for in the order; comments count for nothing.
fn order_code(fact: &Fact) -> Option<u8> {
    match &fact.what {
        What::Mark(code, _) => Some(*code),
        What::Assigned { word, .. } => Some(word.code),
        What::Data(_) => Some(DATA_LINE),
        What::Wrong(..) | What::Comment(_) => None,
    }
}

/// An epoch that can be read, with the fact that tells it and its code.
struct Stamp<'a, 'f> {
    fact: &'a Fact<'f>,
    code: u8,
    epoch: Cut<'f>,
    moment: Moment,
}

/// TIME_ORDER within one segment.
fn time_faults(segment: &[Fact]) -> Vec<Fault> {
    let bounds: Vec<Stamp> = segment.iter().filter_map(bound_stamp).collect();
    let data: Vec<Stamp> = segment.iter().filter_map(data_stamp).collect();
    let falling = bounds.windows(2).filter(|pair| pair[1].moment < pair[0].moment).map(|pair| &pair[1]);
    let stalling = data.windows(2).filter(|pair| pair[1].moment <= pair[0].moment).map(|pair| &pair[1]);
    let outside = data.iter().filter(|stamp| is_outside(&bounds, stamp));
    falling.chain(stalling).chain(outside).map(|stamp| Fault::of(stamp.fact, Reason::TimeOrder, stamp.epoch)).collect()
}

fn bound_stamp<'a, 'f>(fact: &'a Fact<'f>) -> Option<Stamp<'a, 'f>> {
    match &fact.what {
        What::Assigned { word, value, .. } if (START_TIME..=STOP_TIME).contains(&word.code) => stamp(fact, word.code, *value),
        _ => None,
    }
}

fn data_stamp<'a, 'f>(fact: &'a Fact<'f>) -> Option<Stamp<'a, 'f>> {
    match &fact.what {
        What::Data(fields) => stamp(fact, DATA_LINE, fields[0]),
        _ => None,
    }
}

fn stamp<'a, 'f>(fact: &'a Fact<'f>, code: u8, epoch: Cut<'f>) -> Option<Stamp<'a, 'f>> {
    moment(epoch.text).map(|moment| Stamp { fact, code, epoch, moment })
}

/// Whether a data epoch lies outside the bounds given before it; a bound after it is ORDER on its own line.
fn is_outside(bounds: &[Stamp], data: &Stamp) -> bool {
    bounds.iter().filter(|bound| bound.fact.line < data.fact.line).any(|bound| match bound.code {
        START_TIME => data.moment < bound.moment,
        STOP_TIME => data.moment > bound.moment,
        _ => false,
    })
}

#[cfg(test)]
mod tests {
    use super::super::cut::lines;
    use super::super::facts::facts;
    use super::*;

    fn whole(text: &str) -> Option<Fault> {
        let (facts, count) = facts(Kind::Oem, lines(Cut { at: 0, text: text.as_bytes() }));
        least(Kind::Oem, &facts, End { line: count + 1, at: text.len() })
    }

    fn oem(text: &str) -> Option<(usize, Reason)> {
        whole(text).map(|fault| (fault.line, fault.reason))
    }

    /// The bytes of the fault to name.
    fn bytes(text: &str) -> Option<&str> {
        whole(text).map(|fault| &text[fault.start..][..fault.length])
    }

    const HEAD: &str = "CCSDS_OEM_VERS=1.0\nCREATION_DATE=2000-001T00:00:00\nORIGINATOR=a\nMETA_START\nOBJECT_NAME=a\nOBJECT_ID=a\nCENTER_NAME=a\nREF_FRAME=a\nTIME_SYSTEM=a\nSTART_TIME=2000-001T00:00:00\nSTOP_TIME=2000-01-02T00:00:00\nMETA_STOP\n";
    const FIRST: &str = "2000-01-01T00:00:00 1 2 3 4 5 6\n";
    const NEXT: &str = "2000-002T00:00:00 1 2 3 4 5 6\n";

    #[test]
    fn the_least_fault_is_named() {
        assert_eq!(oem(&format!("{HEAD}{FIRST}{NEXT}")), None);
        assert_eq!(oem(HEAD), Some((13, Reason::Short)));
        assert_eq!(oem(&format!("{HEAD}{FIRST}{FIRST}")), Some((14, Reason::TimeOrder)));
        assert_eq!(oem(&format!("{HEAD}{FIRST}COMMENT\n{NEXT}")), Some((15, Reason::Order)));
        assert_eq!(oem(&format!("{HEAD}{FIRST}COMMENT\n{FIRST}nonsense\n")), Some((15, Reason::Order)));
        assert_eq!(oem(&format!("{HEAD}{NEXT}{FIRST}x\n")), Some((14, Reason::TimeOrder)));
        assert_eq!(oem(&format!("{HEAD}2000-003T00:00:00 1 2 3 4 5 .6\n")), Some((13, Reason::Value)));
        assert_eq!(oem(&format!("{HEAD}2000-003T00:00:00 1 2 3 4 5 6\n")), Some((13, Reason::TimeOrder)));
    }

    #[test]
    fn a_fault_knows_its_bytes() {
        let data = |line: &str| format!("{HEAD}{line}\n");
        assert_eq!(bytes(&data("  2000-001T00:00:00 1 .2 3 .4 5 6 ")), Some(".2"));
        assert_eq!(bytes(&data("2000-001T23:59:60 1 .2 3 .4 5 6")), Some("2000-001T23:59:60"));
        assert_eq!(bytes(&data(" 2000-003T00:00:00  1 2 3 4 5 6")), Some("2000-003T00:00:00"));
        assert_eq!(bytes(&data("  nonsense x ")), Some("nonsense x"));
        assert_eq!(bytes(&format!("{HEAD}{FIRST}COMMENT\n  1  2 3 4 5 6 7 \n")), Some("1  2 3 4 5 6 7"));
        assert_eq!(bytes(&HEAD.replace("STOP_TIME=2000-01-02", " STOP_TIME = 1999-01-02")), Some("1999-01-02T00:00:00"));
        assert_eq!(whole(HEAD), Some(Fault { line: 13, reason: Reason::Short, start: HEAD.len(), length: 0 }));
    }

    #[test]
    fn what_comes_later_spoils_no_earlier_line() {
        assert_eq!(oem(&format!("{HEAD}{FIRST}STOP_TIME=1990-001T00:00:00\n")), Some((14, Reason::Order)));
        assert_eq!(oem(&format!("{HEAD}{FIRST}START_TIME=2010-001T00:00:00\n")), Some((14, Reason::Order)));
    }

    #[test]
    fn second_60_stands_by_the_system_of_its_stretch() {
        let leap = |system: &str| {
            let head =
                HEAD.replace("TIME_SYSTEM=a", &format!("TIME_SYSTEM={system}")).replace("2000-001T00:00:00\nORI", "2000-001T23:59:60\nORI");
            format!("{head}{FIRST}2000-001T23:59:60 1 2 3 4 5 6\n{NEXT}")
        };
        let segment = |system: &str| format!("META_START{}", leap(system).split_once("META_START").expect("a segment").1);
        assert_eq!(oem(&leap("  UTC ")), None);
        assert_eq!(oem(&leap("TAI")), Some((14, Reason::Value)));
        assert_eq!(oem(&leap("utc")), Some((14, Reason::Value)));
        assert_eq!(oem(&leap("UTC 1")), Some((14, Reason::Value)));
        assert_eq!(oem(&format!("{}{}", leap("UTC"), segment("UTC"))), None);
        assert_eq!(oem(&format!("{}{}", leap("UTC"), segment("TAI"))), Some((26, Reason::Value)));
        assert_eq!(oem(&format!("{}{}", leap("TAI"), segment("UTC"))), Some((14, Reason::Value)));
    }

    #[test]
    fn comments_elsewhere_part_nothing() {
        let segment = HEAD.split_once("META_START").expect("a segment").1;
        assert_eq!(oem(&format!("{HEAD}COMMENT\n{FIRST}{NEXT}COMMENT\nMETA_START{segment}COMMENT\n{FIRST}")), None);
    }
}
