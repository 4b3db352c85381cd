//! Holds the second writer against what is known, and the face against the second writer.

use crate::outputs;
use crate::tally::Tally;
use crate::words::{known_by, other_bytes, reason_words};
use second::desk::FINE;
use second::face::Face;
use second::send::{lay, Sent};
use second::writings::{Letter, Writing};

/// Facts about a writing that differs.
pub fn compare_sent(writing: &Writing, generated: bool, face: Option<&mut Face>, tally: &mut Tally) -> Result<Vec<String>, String> {
    let Writing { letter, sending, known } = writing;
    let sent = lay(&letter.outgoing, &sending.buffer);
    tally.answers += 1;
    if generated {
        count(writing, &sent, tally);
    }
    let mut facts: Vec<String> = too_long(letter).into_iter().collect();
    if let Some(known) = known {
        facts.extend(other_sent(known_by(generated), known, "the second program", &sent));
    }
    if let Some(face) = face {
        let told = face.next_sent(sending)?;
        facts.extend(other_sent("the second program", &sent, "the product", &told));
    }
    if !facts.is_empty() {
        facts.insert(0, format!("message {} into a buffer of {} bytes", sending.message, sending.buffer.len()));
    }
    Ok(facts)
}

/// A refusal counts where there is something in the buffer that could have been touched.
fn count(writing: &Writing, sent: &Sent, tally: &mut Tally) {
    if sent.reason == FINE || !sent.buffer.is_empty() {
        tally.writings.add(sent.reason);
    }
    tally.outputs.add(outputs::things(writing, sent));
}

/// The fact that an output is longer than its message.
fn too_long(letter: &Letter) -> Option<String> {
    let (text, own) = (letter.outgoing.as_ref().ok()?, letter.own_bytes());
    (text.len() > own.len()).then(|| format!("{} bytes go out for a message of {} bytes", text.len(), own.len()))
}

/// Facts about two answers to one writing.
pub fn other_sent(one: &str, left: &Sent, other: &str, right: &Sent) -> Vec<String> {
    let mut facts = Vec::new();
    if (left.reason, left.line, left.length) != (right.reason, right.line, right.length) {
        facts.push(format!("{one}: {}", sent_words(left)));
        facts.push(format!("{other}: {}", sent_words(right)));
    }
    facts.extend(other_bytes("buffer", one, &left.buffer, other, &right.buffer));
    facts
}

/// What came of a writing, in words; a mixture that no answer has is told as it stands.
fn sent_words(sent: &Sent) -> String {
    match (sent.reason, sent.line, sent.length) {
        (FINE, 0, length) => format!("{length} bytes written"),
        (FINE, line, length) => format!("{length} bytes written, but with line {line}"),
        (reason, line, 0) => format!("refused {} at line {line}", reason_words(reason)),
        (reason, line, length) => format!("refused {} at line {line}, but with length {length}", reason_words(reason)),
    }
}

#[cfg(test)]
mod tests {
    use super::*;

    #[test]
    fn every_number_and_byte_is_compared() {
        let one = Sent { reason: FINE, line: 0, length: 2, buffer: vec![b'a', b'b', 255] };
        assert!(other_sent("one", &one, "other", &one).is_empty());
        let others = [
            Sent { reason: 12, ..one.clone() },
            Sent { line: 1, ..one.clone() },
            Sent { length: 3, ..one.clone() },
            Sent { buffer: vec![b'b', b'b', 255], ..one.clone() },
            Sent { buffer: vec![b'a', b'b', 0], ..one.clone() },
        ];
        others.iter().for_each(|other| assert!(!other_sent("one", &one, "other", other).is_empty()));
        assert_eq!(sent_words(&others[0]), "refused NO_ROOM at line 0, but with length 2");
        assert_eq!(sent_words(&others[1]), "2 bytes written, but with line 1");
    }
}
