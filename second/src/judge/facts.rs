//! A message as a list of facts: one for each line that says something, in reading order.

use super::cut::Cut;
use super::order::speaks_of;
use super::sort::{sort, Sort};
use super::words::{named, Wanted, Word};
use super::{Kind, Reason};

/// What a line says.
#[derive(Debug)]
pub enum What<'f> {
    /// LONG, BYTE, FORM or KEYWORD: the line itself is wrong, by these bytes.
    Wrong(Reason, Cut<'f>),
    Comment(Cut<'f>),
    Mark(u8, Cut<'f>),
    /// A keyword with its value and what stands after a number.
    Assigned {
        word: &'static Word,
        value: Cut<'f>,
        rest: Cut<'f>,
    },
    Data([Cut<'f>; 7]),
}

/// What a line says, and which line of the message it is, from 1, with its text.
#[derive(Debug)]
pub struct Fact<'f> {
    pub line: usize,
    pub text: Cut<'f>,
    pub what: What<'f>,
}

/// The facts of a message, and how many lines they come from; blank lines are counted but say nothing.
/// Nothing is heard after a line that is wrong by itself: no fault of a later line is less than its own.
pub fn facts<'f>(kind: Kind, lines: impl Iterator<Item = Cut<'f>>) -> (Vec<Fact<'f>>, usize) {
    let mut facts = Vec::new();
    let mut count = 0;
    for text in lines {
        count += 1;
        let Some(what) = what(kind, text) else { continue };
        let is_wrong = matches!(what, What::Wrong(..));
        facts.push(Fact { line: count, text, what });
        if is_wrong {
            break;
        }
    }
    (facts, count)
}

fn what(kind: Kind, line: Cut<'_>) -> Option<What<'_>> {
    Some(match sort(line, kind) {
        Sort::Blank => return None,
        Sort::Long(past) => What::Wrong(Reason::Long, past),
        Sort::Byte(byte) => What::Wrong(Reason::Byte, byte),
        Sort::Formless(text) => What::Wrong(Reason::Form, text),
        Sort::Comment(value) => What::Comment(value),
        Sort::Mark(code, past) => What::Mark(code, past),
        Sort::Data(fields) => What::Data(fields),
        Sort::Assignment { keyword, field } => assigned(kind, keyword, field),
    })
}

fn assigned<'f>(kind: Kind, keyword: Cut<'f>, field: Cut<'f>) -> What<'f> {
    match named(keyword.text) {
        Some(word) if word.wanted != Wanted::Nothing && speaks_of(kind, word.code) => {
            let (value, rest) = value_and_rest(word, field);
            What::Assigned { word, value, rest }
        }
        _ => What::Wrong(Reason::Keyword, keyword),
    }
}

/// A number runs to the first blank; any other value is the whole field.
fn value_and_rest<'f>(word: &Word, field: Cut<'f>) -> (Cut<'f>, Cut<'f>) {
    let size = field.text.len();
    match (word.wanted, field.first_field()) {
        (Wanted::Number(_), Some((number, rest))) => (number, rest.trimmed()),
        _ => (field, field.part(size, size)),
    }
}

#[cfg(test)]
mod tests {
    use super::*;

    fn one(kind: Kind, text: &[u8]) -> Option<What<'_>> {
        what(kind, Cut { at: 0, text })
    }

    fn is_wrong(what: Option<What>, reason: Reason) -> bool {
        matches!(what, Some(What::Wrong(found, _)) if found == reason)
    }

    #[test]
    fn keywords_belong_to_a_type() {
        assert!(matches!(one(Kind::Opm, b"EPOCH=1"), Some(What::Assigned { .. })));
        assert!(is_wrong(one(Kind::Oem, b"EPOCH=1"), Reason::Keyword));
        assert!(is_wrong(one(Kind::Opm, b"START_TIME=1"), Reason::Keyword));
        assert!(is_wrong(one(Kind::Oem, b"META_START=1"), Reason::Keyword));
        assert!(is_wrong(one(Kind::Oem, b"COMMENT=1"), Reason::Keyword));
        assert!(is_wrong(one(Kind::Opm, b"=1"), Reason::Keyword));
        assert!(one(Kind::Opm, b"   ").is_none());
    }

    #[test]
    fn nothing_is_heard_after_a_wrong_line() {
        let heard = |text: &[u8]| {
            let (facts, count) = facts(Kind::Opm, super::super::cut::lines(Cut { at: 0, text }));
            (facts.iter().map(|fact| fact.line).collect::<Vec<_>>(), count)
        };
        assert_eq!(heard(b""), (vec![], 0));
        assert_eq!(heard(b"\nCOMMENT\n\nX=1\n\n"), (vec![2, 4], 5));
        assert_eq!(heard(b"\nCOMMENT\n\nx\nX=1\n\n"), (vec![2, 4], 4));
    }

    #[test]
    fn only_numbers_leave_a_rest() {
        let Some(What::Assigned { value, rest, .. }) = one(Kind::Opm, b"X = 5  [KM] ") else { panic!("not assigned") };
        assert_eq!((value.text, rest.text), (&b"5"[..], &b"[KM]"[..]));
        let Some(What::Assigned { value, rest, .. }) = one(Kind::Opm, b"OBJECT_NAME = a  b ") else { panic!("not assigned") };
        assert_eq!((value.text, rest.text), (&b"a  b"[..], &b""[..]));
        let Some(What::Assigned { value, rest, .. }) = one(Kind::Opm, b"X = ") else { panic!("not assigned") };
        assert_eq!((value.text, rest.text), (&b""[..], &b""[..]));
    }
}
