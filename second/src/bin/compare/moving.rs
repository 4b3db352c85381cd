//! Holds the second mover against what is known, and the face against the second mover; what was widened is narrowed back and read.
//! The steps after a widening are given what it must have come to; where the product came to something else, that is told there.

use crate::desks::compare_read;
use crate::tally::Tally;
use crate::widths::{self, NARROWED_BACK, READ};
use crate::words::{known_by, other_bytes, reason_words};
use second::desk::FINE;
use second::face::Face;
use second::movings::{Round, Told};
use second::widths::{shift, Moved, Way};

/// Facts about a moving that differs.
pub fn compare_moved(told: &Told, generated: bool, face: Option<&mut Face>, tally: &mut Tally) -> Result<Vec<String>, String> {
    tally.tables += 1;
    one(told, generated, face, tally)
}

/// Facts about a recorded table that does not come back, or whose rows say something else.
pub fn compare_round(round: &Round, generated: bool, mut face: Option<&mut Face>, tally: &mut Tally) -> Result<Vec<String>, String> {
    tally.tables += 1;
    let mut facts = one(&round.widen, generated, face.as_deref_mut(), tally)?;
    facts.extend(one(&round.narrow, generated, face.as_deref_mut(), tally)?);
    facts.extend(not_back(round));
    let known: Vec<_> = round.heard.iter().copied().map(Some).collect();
    // The tickets are counted as those of tables, not as those of desks.
    facts.extend(compare_read(&round.reading, &known, false, face, tally)?);
    if generated {
        tally.widths.add([NARROWED_BACK]);
        tally.widths.add((!known.is_empty()).then_some(READ));
    }
    Ok(facts)
}

fn one(told: &Told, generated: bool, face: Option<&mut Face>, tally: &mut Tally) -> Result<Vec<String>, String> {
    let Told { moving, known } = told;
    let moved = shift(moving);
    tally.answers += 1;
    if generated {
        count(told, &moved, tally);
    }
    let mut facts = other_moved(known_by(generated), known, "the second program", &moved);
    if let Some(face) = face {
        let told = face.next_moved(moving)?;
        facts.extend(other_moved("the second program", &moved, "the product", &told.moved));
        facts.extend(other_bytes("table that the entries come from", "before the moving", &moving.from, "after it", &told.from));
    }
    if !facts.is_empty() {
        let what = if moving.way == Way::Widen { "widening" } else { "narrowing" };
        facts.insert(0, format!("{what} a table of {} bytes into one of {}", moving.from.len(), moving.into.len()));
    }
    Ok(facts)
}

/// A refusal counts where there is something in the table that could have been touched.
fn count(told: &Told, moved: &Moved, tally: &mut Tally) {
    if moved.reason == FINE || !moved.into.is_empty() {
        let counts = if told.moving.way == Way::Widen { &mut tally.widenings } else { &mut tally.narrowings };
        counts.add(moved.reason);
        tally.widths.add(widths::things(&told.moving, moved.reason));
    }
}

/// The fact that the entries that come back are not those that went.
fn not_back(round: &Round) -> Vec<String> {
    let (went, back) = (&round.widen.moving.from, shift(&round.narrow.moving).into);
    let whole = went.len() / 2 * 2;
    match back.get(..whole) {
        Some(back) => other_bytes("recorded table", "before widening", &went[..whole], "narrowed back", back),
        None => vec![format!("a recorded table of {} bytes comes back with {}", went.len(), back.len())],
    }
}

/// Facts about two answers to one moving.
fn other_moved(one: &str, left: &Moved, other: &str, right: &Moved) -> Vec<String> {
    let mut facts = Vec::new();
    if left.reason != right.reason {
        facts.push(format!("{one}: {}", moved_words(left)));
        facts.push(format!("{other}: {}", moved_words(right)));
    }
    facts.extend(other_bytes("table that the entries go into", one, &left.into, other, &right.into));
    facts
}

fn moved_words(moved: &Moved) -> String {
    match moved.reason {
        FINE => "done".to_string(),
        reason => format!("refused {}", reason_words(reason)),
    }
}

#[cfg(test)]
mod tests {
    use super::*;
    use second::dice::Dice;
    use second::movings::{any_tables, Tables};
    use second::widths::Moving;

    fn told(way: Way, from: &[u8], into: &[u8], reason: u32, after: &[u8]) -> Told {
        let moving = Moving { way, from: from.to_vec(), into: into.to_vec() };
        Told { moving, known: Moved { reason, into: after.to_vec() } }
    }

    #[test]
    fn what_differs_is_told_one_fact_a_line() {
        let facts = |told: &Told| compare_moved(told, true, None, &mut Tally::new()).expect("no face is asked");
        assert!(facts(&told(Way::Widen, &[1, 2], &[7; 4], FINE, &[1, 2, 0, 0])).is_empty());
        let wrong = facts(&told(Way::Narrow, &[1, 2, 1, 0], &[7; 2], FINE, &[1, 7]));
        assert_eq!(
            wrong,
            [
                "narrowing a table of 4 bytes into one of 2",
                "foretold: done",
                "the second program: refused WIDE",
                "bytes of the table that the entries go into that differ: 1, the first at 0",
                "foretold: byte 1",
                "the second program: byte 7",
            ]
        );
    }

    #[test]
    fn a_face_that_says_or_leaves_something_else_is_told() {
        // This face says what it hears: reason, source and target.
        let mut face = Face::start(&["cat".to_string()]).expect("started");
        face.send([&[0, 0, 0, 0, 1, 2, 1, 2, 0, 0][..], &[19, 0, 0, 0, 1, 2, 1, 2, 0, 0]].concat());
        face.send([&[0, 0, 0, 0, 1, 3, 1, 2, 0, 0][..], &[0, 0, 0, 0, 1, 2, 1, 2, 0, 1]].concat());
        let asked = told(Way::Widen, &[1, 2], &[7; 4], FINE, &[1, 2, 0, 0]);
        let mut tally = Tally::new();
        let facts: Vec<_> = (0..4).map(|_| compare_moved(&asked, true, Some(&mut face), &mut tally).expect("answered").len()).collect();
        assert_eq!(facts, [0, 3, 4, 4]);
        assert_eq!((tally.tables, tally.answers), (4, 4));
    }

    #[test]
    fn a_table_that_does_not_come_back_is_told() {
        let rounds = (0..200).filter_map(|turn| match any_tables(&mut Dice::new(73, turn)) {
            Tables::Round(round) if round.widen.moving.from.len() > 1 => Some(round),
            _ => None,
        });
        for mut round in rounds {
            assert!(compare_round(&round, true, None, &mut Tally::new()).expect("no face is asked").is_empty());
            round.narrow.moving.from[0] ^= 1;
            assert!(!not_back(&round).is_empty());
            round.narrow.moving.into.clear();
            assert!(!not_back(&round).is_empty());
        }
    }
}
