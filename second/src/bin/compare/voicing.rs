//! Holds the second speaker against what is known and what is heard, and the face against the second speaker; its words must be heard too.

use crate::phrases;
use crate::tally::Tally;
use crate::words::{known_by, other_bytes, reason_words};
use second::desk::FINE;
use second::face::Face;
use second::hear::fault;
use second::judge::with_code;
use second::voice::{voice, Voiced, Voicing};
use second::voicings::Prompt;

/// So many bytes of a value are shown, and of its words; few have so many.
const SHOWN: usize = 300;

/// Facts about a voicing that differs.
pub fn compare_voiced(prompt: &Prompt, generated: bool, face: Option<&mut Face>, tally: &mut Tally) -> Result<Vec<String>, String> {
    let Prompt { voicing, known } = prompt;
    let voiced = voice(voicing);
    tally.answers += 1;
    if generated {
        count(voicing, &voiced, tally);
    }
    let mut facts = Vec::new();
    if let Some(fault) = misheard("the second program", voicing, &voiced) {
        facts.extend([format!("the second program: {}", voiced_words(&voiced)), fault]);
    }
    if let Some(known) = known {
        facts.extend(other_voiced(known_by(generated), known, "the second program", &voiced));
    }
    if let Some(face) = face {
        let told = face.next_voiced(voicing)?;
        facts.extend(other_voiced("the second program", &voiced, "the product", &told));
        facts.extend(misheard("the product", voicing, &told));
    }
    if !facts.is_empty() {
        facts.splice(0..0, asked_words(voicing));
    }
    Ok(facts)
}

/// A refusal counts where there is something in the buffer that could have been touched.
fn count(voicing: &Voicing, voiced: &Voiced, tally: &mut Tally) {
    if voiced.reason == FINE || !voiced.buffer.is_empty() {
        tally.voicings.add(voiced.reason);
    }
    tally.phrases.add(phrases::things(voicing, voiced));
}

/// The fact that someone's words are not heard as the value.
fn misheard(who: &str, voicing: &Voicing, voiced: &Voiced) -> Option<String> {
    fault(voicing, voiced).map(|fault| format!("{who}: {fault}"))
}

/// Facts about two answers to one voicing.
fn other_voiced(one: &str, left: &Voiced, other: &str, right: &Voiced) -> Vec<String> {
    let mut facts = Vec::new();
    let [mine, theirs] = [left, right].map(voiced_words);
    if mine != theirs {
        facts.extend([format!("{one}: {mine}"), format!("{other}: {theirs}")]);
    }
    facts.extend(other_bytes("buffer", one, &left.buffer, other, &right.buffer));
    facts
}

/// What was asked.
fn asked_words(voicing: &Voicing) -> [String; 3] {
    let keyword = with_code(voicing.code).map_or("no keyword", |word| word.name);
    let value = match voicing.value.get(..SHOWN) {
        None => format!("the value \"{}\"", voicing.value.escape_ascii()),
        Some(front) => format!("a value of {} bytes that begins with \"{}\"", voicing.value.len(), front.escape_ascii()),
    };
    [format!("code {}, {keyword}", voicing.code), value, format!("into a buffer of {} bytes", voicing.buffer.len())]
}

/// What came of a voicing, in words; a mixture that no answer has is told as it stands.
fn voiced_words(voiced: &Voiced) -> String {
    let Voiced { reason, length, buffer } = voiced;
    match (*reason, *length, buffer.get(..*length as usize)) {
        (FINE, _, Some(words)) => format!("\"{}\", length {length}", words.escape_ascii()),
        (FINE, _, None) => format!("words of {length} bytes in a buffer of {}", buffer.len()),
        (reason, 0, _) => format!("refused {}", reason_words(reason)),
        (reason, length, _) => format!("refused {}, but with length {length}", reason_words(reason)),
    }
}

#[cfg(test)]
mod tests {
    use super::*;

    fn voiced(reason: u32, length: u32, buffer: &[u8]) -> Voiced {
        Voiced { reason, length, buffer: buffer.to_vec() }
    }

    fn prompt(code: u32, value: &[u8], buffer: &[u8], known: Option<Voiced>) -> Prompt {
        Prompt { voicing: Voicing { code, value: value.to_vec(), buffer: buffer.to_vec() }, known }
    }

    fn facts(prompt: &Prompt) -> Vec<String> {
        compare_voiced(prompt, true, None, &mut Tally::new()).expect("no face is asked")
    }

    #[test]
    fn every_number_and_byte_is_compared() {
        let one = voiced(FINE, 7, b"minus 1\xff");
        assert!(other_voiced("one", &one, "other", &one).is_empty());
        let others = [
            Voiced { reason: 12, ..one.clone() },
            Voiced { length: 6, ..one.clone() },
            Voiced { length: 8, ..one.clone() },
            Voiced { length: 9, ..one.clone() },
            Voiced { buffer: b"minus 2\xff".to_vec(), ..one.clone() },
            Voiced { buffer: b"minus 1\0".to_vec(), ..one.clone() },
        ];
        others.iter().for_each(|other| assert!(!other_voiced("one", &one, "other", other).is_empty()));
        assert_eq!(voiced_words(&others[0]), "refused NO_ROOM, but with length 7");
        assert_eq!(voiced_words(&others[2]), "\"minus 1\\xff\", length 8");
        assert_eq!(voiced_words(&others[3]), "words of 9 bytes in a buffer of 8");
        assert_eq!(voiced_words(&voiced(8, 0, b"12")), "refused VALUE");
    }

    #[test]
    fn a_difference_is_told_one_fact_a_line() {
        assert!(facts(&prompt(10, b"-1", &[255; 8], Some(voiced(FINE, 7, b"minus 1\xff")))).is_empty());
        assert!(facts(&prompt(10, b"-1", &[255; 6], None)).is_empty());
        assert_eq!(
            facts(&prompt(10, b"-1", &[255; 6], Some(voiced(FINE, 1, b"1\xff\xff\xff\xff\xff")))),
            [
                "code 10, X", "the value \"-1\"", "into a buffer of 6 bytes", "foretold: \"1\", length 1",
                "the second program: refused NO_ROOM", "bytes of the buffer that differ: 1, the first at 0", "foretold: byte 49",
                "the second program: byte 255",
            ]
        );
        let long = facts(&prompt(46, &[b'7'; 70_000], b"", Some(voiced(12, 0, b""))));
        assert_eq!(long[0], "code 46, no keyword");
        assert!(long[1].starts_with("a value of 70000 bytes that begins with \"777") && long[1].len() < 400);
    }

    #[test]
    fn a_face_that_says_something_else_is_told_and_what_it_is_heard_as() {
        // This face says what it hears.
        let mut face = Face::start(&["cat".to_string()]).expect("started");
        let answer = |reason: u32, length: u32, buffer: &[u8]| [&reason.to_le_bytes()[..], &length.to_le_bytes(), buffer].concat();
        face.send([answer(0, 7, b"minus 1~"), answer(0, 6, b"plus 1~~"), answer(12, 0, b"~~~~~~~~"), answer(0, 9, b"minus 1~")].concat());
        face.send([answer(0, 8, b"minus 1~"), answer(0, 7, b"minus 1\0"), answer(8, 0, b"~~~~~~~0")].concat());
        let (asked, mut tally) = (prompt(10, b"-1", b"~~~~~~~~", None), Tally::new());
        let mut next = || compare_voiced(&asked, true, Some(&mut face), &mut tally).expect("answered");
        assert!(next().is_empty());
        let other = next();
        assert_eq!(other[3..5], ["the second program: \"minus 1\", length 7", "the product: \"plus 1\", length 6"]);
        assert_eq!(other[8..], ["the product: the words are heard as \"+1\""]);
        assert_eq!(next()[4], "the product: refused NO_ROOM");
        assert_eq!(next()[5], "the product: the words are longer than the buffer");
        assert_eq!(next()[5], "the product: the words are heard as no value");
        assert_eq!(
            next()[3..],
            ["bytes of the buffer that differ: 1, the first at 7", "the second program: byte 126", "the product: byte 0"]
        );
        assert_eq!(next()[4], "the product: refused VALUE");
        assert_eq!(tally.answers, 7);
    }

    #[test]
    fn a_refusal_counts_where_a_byte_could_have_been_touched() {
        let mut tally = Tally::new();
        for (value, buffer) in [(&b"-1"[..], &b"123"[..]), (b"-1", b""), (b"-", b"1"), (b"-", b""), (b"1", b"1")] {
            compare_voiced(&prompt(10, value, buffer, None), true, None, &mut tally).expect("no face is asked");
            compare_voiced(&prompt(10, value, buffer, None), false, None, &mut tally).expect("no face is asked");
        }
        assert_eq!(tally.voicings.words(), "generated voicings: said 1, VALUE 1, NO_ROOM 1");
    }
}
