//! The order of keywords: a grammar as text, and a walk over the grammar that eats the codes of a whole message.

use super::words::{named, DATA_LINE};
use super::Kind;
use std::sync::OnceLock;

/// `?` is none or one, `+` one or more, `*` any number, `|` either.
const OPM: &str = "
    CCSDS_OPM_VERS CREATION_DATE ORIGINATOR
    OBJECT_NAME OBJECT_ID CENTER_NAME REF_FRAME TIME_SYSTEM
    EPOCH X Y Z X_DOT Y_DOT Z_DOT
    ( SEMI_MAJOR_AXIS ECCENTRICITY INCLINATION RA_OF_ASC_NODE ARG_OF_PERICENTER
      ( TRUE_ANOMALY | MEAN_ANOMALY ) GM )?
    MASS SOLAR_RAD_AREA SOLAR_RAD_COEFF DRAG_AREA DRAG_COEFF
    ( MAN_EPOCH_IGNITION MAN_DURATION MAN_DELTA_MASS MAN_REF_FRAME MAN_DV_1 MAN_DV_2 MAN_DV_3 )*";

/// Both lines of interpolation or neither: request (iv) of document 02.
const OEM: &str = "
    CCSDS_OEM_VERS CREATION_DATE ORIGINATOR
    ( META_START OBJECT_NAME OBJECT_ID CENTER_NAME REF_FRAME TIME_SYSTEM
      START_TIME USEABLE_START_TIME? USEABLE_STOP_TIME? STOP_TIME
      ( INTERPOLATION INTERPOLATION_DEGREE )? META_STOP data-line+ )+";

/// How a data line is called in the grammar.
const DATA_NAME: &str = "data-line";

/// A piece of the grammar.
#[derive(Debug, PartialEq, Eq)]
enum Part {
    One(u8),
    Row(Vec<Part>),
    Either(Vec<Part>),
    Repeat { part: Box<Part>, least: usize, most: usize },
}

/// What the codes of a message come to.
#[derive(Clone, Copy, Debug, PartialEq, Eq)]
pub enum Fit {
    Whole,
    /// The code at this place is not allowed there.
    Misfit(usize),
    Unfinished,
}

/// Holds the codes of a whole message against its type's order.
pub fn fit(kind: Kind, codes: &[u8]) -> Fit {
    match eat(grammar(kind), codes, 0) {
        Ok(end) if end == codes.len() => Fit::Whole,
        Err(stuck) if stuck == codes.len() => Fit::Unfinished,
        Ok(at) | Err(at) => Fit::Misfit(at),
    }
}

/// Whether the grammar of this type speaks of the code.
pub fn speaks_of(kind: Kind, code: u8) -> bool {
    holds(grammar(kind), code)
}

fn holds(part: &Part, code: u8) -> bool {
    match part {
        Part::One(one) => *one == code,
        Part::Row(parts) | Part::Either(parts) => parts.iter().any(|part| holds(part, code)),
        Part::Repeat { part, .. } => holds(part, code),
    }
}

/// Eats what belongs to the part: where it ends, or the first place that does not fit.
fn eat(part: &Part, codes: &[u8], at: usize) -> Result<usize, usize> {
    match part {
        Part::One(one) => {
            if codes.get(at) == Some(one) {
                Ok(at + 1)
            } else {
                Err(at)
            }
        }
        Part::Row(parts) => parts.iter().try_fold(at, |at, part| eat(part, codes, at)),
        // A choice is made once its first code is eaten, since no two begin alike.
        Part::Either(parts) => parts.iter().map(|part| eat(part, codes, at)).find(|end| *end != Err(at)).unwrap_or(Err(at)),
        Part::Repeat { part, least, most } => eat_often(part, *least, *most, codes, at),
    }
}

/// Eats the part again and again; a turn that eats nothing is no turn.
fn eat_often(part: &Part, least: usize, most: usize, codes: &[u8], from: usize) -> Result<usize, usize> {
    let mut at = from;
    for turn in 0..most {
        match eat(part, codes, at) {
            Ok(end) => at = end,
            Err(stuck) if stuck == at && turn >= least => break,
            Err(stuck) => return Err(stuck),
        }
    }
    Ok(at)
}

fn grammar(kind: Kind) -> &'static Part {
    static PARTS: OnceLock<(Part, Part)> = OnceLock::new();
    let (opm, oem) = PARTS.get_or_init(|| (read(OPM), read(OEM)));
    match kind {
        Kind::Opm => opm,
        Kind::Oem => oem,
    }
}

/// Reads a grammar from its text.
fn read(text: &str) -> Part {
    let tokens = tokens(text);
    let mut rest = &tokens[..];
    let part = read_choice(&mut rest);
    assert!(rest.is_empty(), "the grammar has something left over: {rest:?}");
    part
}

/// The names and the signs of a grammar.
fn tokens(text: &str) -> Vec<String> {
    let mut apart = text.to_string();
    for sign in ["(", ")", "|", "?", "+", "*"] {
        apart = apart.replace(sign, &format!(" {sign} "));
    }
    apart.split_whitespace().map(str::to_string).collect()
}

fn read_choice(rest: &mut &[String]) -> Part {
    let mut parts = vec![read_row(rest)];
    while take(rest, "|") {
        parts.push(read_row(rest));
    }
    if parts.len() == 1 {
        parts.remove(0)
    } else {
        Part::Either(parts)
    }
}

fn read_row(rest: &mut &[String]) -> Part {
    let mut parts = Vec::new();
    while rest.first().is_some_and(|token| token != ")" && token != "|") {
        parts.push(read_one(rest));
    }
    if parts.len() == 1 {
        parts.remove(0)
    } else {
        Part::Row(parts)
    }
}

fn read_one(rest: &mut &[String]) -> Part {
    let part = if take(rest, "(") {
        let inner = read_choice(rest);
        assert!(take(rest, ")"), "the grammar lacks a closing bracket");
        inner
    } else {
        read_name(rest)
    };
    let (least, most) = match rest.first().map(String::as_str) {
        Some("?") => (0, 1),
        Some("+") => (1, usize::MAX),
        Some("*") => (0, usize::MAX),
        _ => return part,
    };
    *rest = &rest[1..];
    Part::Repeat { part: Box::new(part), least, most }
}

fn read_name(rest: &mut &[String]) -> Part {
    let name = rest[0].as_str();
    *rest = &rest[1..];
    if name == DATA_NAME {
        return Part::One(DATA_LINE);
    }
    Part::One(named(name.as_bytes()).unwrap_or_else(|| panic!("the grammar names a stranger: {name}")).code)
}

fn take(rest: &mut &[String], token: &str) -> bool {
    let found = rest.first().is_some_and(|first| first == token);
    if found {
        *rest = &rest[1..];
    }
    found
}

#[cfg(test)]
mod tests {
    use super::*;

    fn opm(codes: &[u8]) -> Fit {
        fit(Kind::Opm, codes)
    }

    fn oem(codes: &[u8]) -> Fit {
        fit(Kind::Oem, codes)
    }

    const STATE: [u8; 15] = [1, 2, 3, 4, 5, 6, 7, 8, 9, 10, 11, 12, 13, 14, 15];
    const CRAFT: [u8; 5] = [24, 25, 26, 27, 28];
    const BURN: [u8; 7] = [29, 30, 31, 32, 33, 34, 35];
    const HEAD: [u8; 3] = [36, 2, 3];
    const META: [u8; 9] = [37, 4, 5, 6, 7, 8, 38, 41, 44];

    #[test]
    fn a_grammar_is_read_as_written() {
        let one = |code| Part::One(code);
        let maybe = |part| Part::Repeat { part: Box::new(part), least: 0, most: 1 };
        assert_eq!(read("X"), one(10));
        assert_eq!(read("X Y? "), Part::Row(vec![one(10), maybe(one(11))]));
        assert_eq!(read("(X|Y)?"), maybe(Part::Either(vec![one(10), one(11)])));
    }

    #[test]
    fn no_code_stands_twice_in_a_grammar() {
        fn gather(part: &Part, seen: &mut Vec<u8>) {
            match part {
                Part::One(code) => seen.push(*code),
                Part::Row(parts) | Part::Either(parts) => parts.iter().for_each(|part| gather(part, seen)),
                Part::Repeat { part, .. } => gather(part, seen),
            }
        }
        for (kind, size) in [(Kind::Opm, 35), (Kind::Oem, 17)] {
            let mut seen = Vec::new();
            gather(grammar(kind), &mut seen);
            assert_eq!(seen.len(), size);
            seen.sort_unstable();
            seen.dedup();
            assert_eq!(seen.len(), size);
        }
    }

    #[test]
    fn an_opm_with_and_without_its_options() {
        assert_eq!(opm(&[&STATE[..], &CRAFT].concat()), Fit::Whole);
        for anomaly in [21, 22] {
            let kepler = [16, 17, 18, 19, 20, anomaly, 23];
            assert_eq!(opm(&[&STATE[..], &kepler, &CRAFT, &BURN, &BURN].concat()), Fit::Whole);
        }
        assert_eq!(opm(&STATE), Fit::Unfinished);
        assert_eq!(opm(&[]), Fit::Unfinished);
        assert_eq!(opm(&[&STATE[..], &CRAFT, &BURN, &BURN[..3]].concat()), Fit::Unfinished);
        assert_eq!(opm(&[&STATE[..], &BURN].concat()), Fit::Misfit(15));
        assert_eq!(opm(&[&STATE[..], &[16, 24]].concat()), Fit::Misfit(16));
        assert_eq!(opm(&[&STATE[..], &[16, 17, 18, 19, 20, 21, 22]].concat()), Fit::Misfit(21));
        assert_eq!(opm(&[&STATE[..], &[16, 17, 18, 19, 20, 23]].concat()), Fit::Misfit(20));
        assert_eq!(opm(&[&STATE[..], &CRAFT, &[28]].concat()), Fit::Misfit(20));
        assert_eq!(opm(&[2]), Fit::Misfit(0));
    }

    #[test]
    fn an_oem_with_segments() {
        let segment = [&META[..], &[0, 0]].concat();
        assert_eq!(oem(&[&HEAD[..], &segment].concat()), Fit::Whole);
        assert_eq!(oem(&[&HEAD[..], &segment, &segment].concat()), Fit::Whole);
        assert_eq!(oem(&HEAD), Fit::Unfinished);
        assert_eq!(oem(&[&HEAD[..], &META].concat()), Fit::Unfinished);
        assert_eq!(oem(&[&HEAD[..], &segment, &[37]].concat()), Fit::Unfinished);
        assert_eq!(oem(&[&HEAD[..], &segment, &[44]].concat()), Fit::Misfit(14));
        assert_eq!(oem(&[&HEAD[..], &[0]].concat()), Fit::Misfit(3));
        assert_eq!(oem(&[&HEAD[..], &META, &[37]].concat()), Fit::Misfit(12));
        assert_eq!(oem(&[&HEAD[..], &[37, 4, 5, 6, 7, 8, 38, 39, 40, 41, 42, 43, 44, 0]].concat()), Fit::Whole);
        assert_eq!(oem(&[&HEAD[..], &[37, 4, 5, 6, 7, 8, 38, 40, 39]].concat()), Fit::Misfit(11));
    }

    #[test]
    fn both_lines_of_interpolation_or_neither() {
        let block = [37, 4, 5, 6, 7, 8, 38, 41];
        let first = [&HEAD[..], &block].concat();
        let second = [&HEAD[..], &block, &[42, 43, 44, 0, 0], &block].concat();
        for before in [first, second] {
            let after = |codes: &[u8]| oem(&[&before[..], codes].concat());
            let misfit = |place: usize| Fit::Misfit(before.len() + place);
            assert_eq!(after(&[44, 0]), Fit::Whole);
            assert_eq!(after(&[42, 43, 44, 0]), Fit::Whole);
            // One of the two alone.
            assert_eq!(after(&[43, 44, 0]), misfit(0));
            assert_eq!(after(&[42, 44, 0]), misfit(1));
            // Exchanged, or doubled.
            assert_eq!(after(&[43, 42, 44, 0]), misfit(0));
            assert_eq!(after(&[42, 42, 43, 44, 0]), misfit(1));
            assert_eq!(after(&[42, 43, 43, 44, 0]), misfit(2));
            assert_eq!(after(&[42, 43, 42, 43, 44, 0]), misfit(2));
            // Something else in place of the degree.
            assert_eq!(after(&[42, 0]), misfit(1));
            assert_eq!(after(&[42, 37]), misfit(1));
            assert_eq!(after(&[42, 41]), misfit(1));
            // The message ends there.
            assert_eq!(after(&[42]), Fit::Unfinished);
            assert_eq!(after(&[42, 43]), Fit::Unfinished);
            assert_eq!(after(&[43]), misfit(0));
        }
        // Too early, both of them.
        assert_eq!(oem(&[&HEAD[..], &block[..7], &[42, 43, 41, 44, 0]].concat()), Fit::Misfit(10));
    }

    #[test]
    fn each_type_speaks_of_its_own_codes() {
        assert!(speaks_of(Kind::Opm, 9) && !speaks_of(Kind::Oem, 9));
        assert!(speaks_of(Kind::Oem, 43) && !speaks_of(Kind::Opm, 43));
        assert!(speaks_of(Kind::Oem, 8) && speaks_of(Kind::Opm, 8));
        assert!(!speaks_of(Kind::Oem, 45) && !speaks_of(Kind::Opm, 45));
    }
}
