//! Holds the second sayer against what is known and what is due, and the face against the second sayer.

use crate::roundings;
use crate::tally::Tally;
use crate::words::{known_by, reason_words};
use second::desk::FINE;
use second::face::Face;
use second::say::{say, Said, Saying};
use second::sayings::Spoken;
use second::weigh::weigh;

/// So many bytes of a text are shown; no number has so many.
const SHOWN: usize = 200;

/// Facts about a saying that differs.
pub fn compare_said(spoken: &Spoken, generated: bool, face: Option<&mut Face>, tally: &mut Tally) -> Result<Vec<String>, String> {
    let Spoken { saying, known } = spoken;
    let (said, due) = (say(saying), weigh(saying));
    tally.texts += 1;
    tally.answers += 1;
    if generated {
        tally.sayings.add(said.reason);
        tally.roundings.add(roundings::things(saying, &due, said));
    }
    let mut facts = Vec::new();
    if let Some(fault) = due.fault(said) {
        facts.push(format!("the second program: {}", said_words(said)));
        facts.push(fault.to_string());
    }
    if let Some(known) = known {
        facts.extend(other_said(known_by(generated), *known, "the second program", said));
    }
    if let Some(face) = face {
        facts.extend(other_said("the second program", said, "the product", face.next_said()?));
    }
    if !facts.is_empty() {
        facts.splice(0..0, asked_words(saying));
    }
    Ok(facts)
}

/// Facts about two answers to one saying.
fn other_said(one: &str, left: Said, other: &str, right: Said) -> Vec<String> {
    if left == right {
        return Vec::new();
    }
    vec![format!("{one}: {}", said_words(left)), format!("{other}: {}", said_words(right))]
}

/// What was asked; bytes that cannot be shown are told by their numbers.
fn asked_words(saying: &Saying) -> [String; 2] {
    let text = &saying.text;
    let words = match text.get(..SHOWN) {
        None => format!("the text \"{}\"", text.escape_ascii()),
        Some(front) => format!("a text of {} bytes that begins with \"{}\"", text.len(), front.escape_ascii()),
    };
    [words, format!("decimals: {}", saying.decimals)]
}

/// What was said, in words; a mixture that no answer has is told as it stands.
fn said_words(said: Said) -> String {
    match (said.reason, said.units) {
        (FINE, units) => format!("{units} units"),
        (reason, 0) => format!("refused {}", reason_words(reason)),
        (reason, units) => format!("refused {}, but with {units} units", reason_words(reason)),
    }
}

#[cfg(test)]
mod tests {
    use super::*;

    fn spoken(text: &[u8], decimals: u32, known: Option<Said>) -> Spoken {
        Spoken { saying: Saying { text: text.to_vec(), decimals }, known }
    }

    fn facts(spoken: &Spoken) -> Vec<String> {
        compare_said(spoken, true, None, &mut Tally::new()).expect("no face is asked")
    }

    #[test]
    fn both_numbers_are_compared() {
        let one = Said { reason: FINE, units: -3 };
        assert!(other_said("one", one, "other", one).is_empty());
        assert_eq!(other_said("one", one, "other", Said { units: 3, ..one }), ["one: -3 units", "other: 3 units"]);
        assert_eq!(
            other_said("one", Said { reason: 17, units: 0 }, "other", Said { reason: 17, units: 1 }),
            ["one: refused TOO_BIG", "other: refused TOO_BIG, but with 1 units"]
        );
        assert_eq!(said_words(Said { reason: 99, units: 0 }), "refused reason 99");
    }

    #[test]
    fn a_difference_is_told_one_fact_a_line() {
        assert!(facts(&spoken(b"-0.5", 0, Some(Said { reason: FINE, units: -1 }))).is_empty());
        assert!(facts(&spoken(b"-0.5", 0, None)).is_empty());
        assert_eq!(
            facts(&spoken(b"1\"\n\xff", 6, Some(Said { reason: FINE, units: 1 }))),
            ["the text \"1\\\"\\n\\xff\"", "decimals: 6", "foretold: 1 units", "the second program: refused VALUE"]
        );
        let long = facts(&spoken(&[b'7'; 300], 7, Some(Said { reason: 8, units: 0 })));
        assert!(long[0].starts_with("a text of 300 bytes that begins with \"777") && long[0].len() < 300);
    }

    #[test]
    fn a_face_that_says_something_else_is_told() {
        // This face says what it hears.
        let mut face = Face::start(&["cat".to_string()]).expect("started");
        let said = |reason: u32, units: i64| [&reason.to_le_bytes()[..], &units.to_le_bytes()].concat();
        face.send([said(0, -1), said(0, 0), said(8, 0), said(0, 1)].concat());
        let mut tally = Tally::new();
        let asked = spoken(b"-0.5", 0, None);
        let facts: Vec<_> = (0..4).map(|_| compare_said(&asked, true, Some(&mut face), &mut tally).expect("answered").len()).collect();
        assert_eq!(facts, [0, 4, 4, 4]);
        assert_eq!((tally.texts, tally.answers), (4, 4));
        assert!(compare_said(&asked, true, None, &mut tally).is_ok());
    }
}
