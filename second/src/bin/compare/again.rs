//! Has what went out for a message placed and written again, by both programs, and holds the second placing against the first.
//! The message was written before, and the product's bytes were held against the second program's, so both are given the same bytes here;
//! where the product's were others, that was told then.

use crate::desks::{next_placed, other_placed, placed_words};
use crate::outputs;
use crate::sending::other_sent;
use crate::tally::Tally;
use second::bytes::Bytes;
use second::desk::{place, read, value, Placed, Reading, Ticket, FINE};
use second::face::Face;
use second::judge::headings;
use second::send::{send, Sent};
use second::writings::Again;

/// What one program says, step by step: the first placing, the reason and count of the output's headings, its placing and its writing.
struct Round {
    first: Placed,
    headings: (u32, u32),
    then: Placed,
    sent: Sent,
}

/// Facts about an output that isn't the message that it was.
pub fn compare_again(again: &Again, generated: bool, face: Option<&mut Face>, tally: &mut Tally) -> Result<Vec<String>, String> {
    let ours = round(again);
    tally.answers += 4;
    if generated {
        tally.outputs.add(outputs::AGAIN);
    }
    let mut facts = check_round("the second program", again, &ours);
    if let Some(face) = face {
        let told = told_round(again, face)?;
        facts.extend(check_round("the product", again, &told));
        facts.extend(other_placings(&ours, &told));
    }
    if !facts.is_empty() {
        facts.insert(0, format!("what went out for message {}, {} bytes", again.first.message, again.then.feed.len()));
    }
    Ok(facts)
}

fn round(again: &Again) -> Round {
    let headings = headings(&again.then.feed).map_or_else(|reason| (reason.number(), 0), |count| (FINE, count as u32));
    Round { first: place(&again.first), headings, then: place(&again.then), sent: send(&again.sending) }
}

/// The face's answers, in the order in which it was asked.
fn told_round(again: &Again, face: &mut Face) -> Result<Round, String> {
    let first = next_placed(face, &again.first)?;
    let counted = face.next_judged(0)?;
    let headings = (counted.reason, counted.count);
    Ok(Round { first, headings, then: next_placed(face, &again.then)?, sent: face.next_sent(&again.sending)? })
}

/// Facts about what one program makes of the output otherwise than of the message.
fn check_round(who: &str, again: &Again, round: &Round) -> Vec<String> {
    let mut facts = Vec::new();
    let (reason, count) = round.headings;
    if (reason, count) != (FINE, 1) {
        facts.push(format!("{who}, counting the output's headings: reason {reason} and count {count}"));
    }
    if round.first.reason != FINE || round.then.reason != FINE {
        facts.push(format!("{who}, the message placed: {}", placed_words(&round.first)));
        facts.push(format!("{who}, the output placed: {}", placed_words(&round.then)));
    }
    facts.extend(other_spoken(who, &spoken(&again.first.feed, &round.first), &spoken(&again.then.feed, &round.then)));
    facts.extend(other_sent("the output itself", &itself(again), &format!("{who}, the output written again"), &round.sent));
    facts
}

/// What must come of writing the output: its own bytes.
fn itself(again: &Again) -> Sent {
    let (out, buffer) = (&again.then.feed, &again.sending.buffer);
    Sent { reason: FINE, line: 0, length: out.len() as u32, buffer: [out, &buffer[out.len()..]].concat() }
}

/// A row's code, group and value.
type Spoken = (u32, u32, Vec<u8>);

/// What the rows of a placing say; one that can't be read says nothing, and of a count that no table holds one such row is enough.
fn spoken(feed: &Bytes, placed: &Placed) -> Vec<Option<Spoken>> {
    let held = placed.table.len() / 20;
    let tickets = (0..placed.desk.count).take(held + 1).map(|row| Ticket { load: placed.desk.load, row }).collect();
    let rows = read(&Reading { desk: placed.desk, feed: feed.clone(), table: placed.table.clone(), tickets });
    rows.iter().map(|row| row.as_ref().ok().and_then(|row| Some((row.code, row.group, value(feed, row)?.to_vec())))).collect()
}

/// The first row that says something else after the second placing than after the first.
fn other_spoken(who: &str, first: &[Option<Spoken>], then: &[Option<Spoken>]) -> Option<String> {
    let at = (0..first.len().max(then.len())).find(|at| first.get(*at) != then.get(*at))?;
    let words = |rows: &[Option<Spoken>]| match rows.get(at) {
        Some(Some((code, group, value))) => format!("code {code}, group {group}, {:?}", String::from_utf8_lossy(value)),
        Some(None) => "a row that is astray".to_string(),
        None => "no such row".to_string(),
    };
    Some(format!("{who}, row {at}: {} of the message, {} of the output", words(first), words(then)))
}

/// Facts about placings that come to something else; the other steps have one right answer.
fn other_placings(ours: &Round, told: &Round) -> Vec<String> {
    let placings = [("message", &ours.first, &told.first), ("output", &ours.then, &told.then)];
    let differ = |(what, left, right): (&str, &Placed, &Placed)| {
        other_placed(&format!("the second program, the {what} placed"), left, &format!("the product, the {what} placed"), right)
    };
    placings.into_iter().flat_map(differ).collect()
}

#[cfg(test)]
mod tests {
    use super::*;
    use second::judge::Feed;
    use second::writings::Letter;

    /// An OEM that goes out shorter than it came.
    fn again() -> Again {
        let feed: Bytes = b"junk\nCCSDS_OEM_VERS = 1.0\nCREATION_DATE = 2000-001T00:00:00\n\nORIGINATOR = A\nCOMMENT  x\nMETA_START \n\
            OBJECT_NAME=B\nOBJECT_ID=C\nCENTER_NAME=D\nREF_FRAME=E\nTIME_SYSTEM=UTC\nSTART_TIME=2000-001T00:00:00\n\
            STOP_TIME=2000-001T00:00:00\nMETA_STOP\n2000-01-01T00:00:00  1 2 3 4 5 6\n"[..]
            .into();
        Letter::new(&feed, &Feed::new(&feed), 1).again(|size| vec![255; size + 3]).expect("accepted")
    }

    #[test]
    fn a_right_round_has_nothing_to_tell() {
        let again = again();
        assert_eq!(check_round("one", &again, &round(&again)), Vec::<String>::new());
        assert_eq!(other_placings(&round(&again), &round(&again)), Vec::<String>::new());
    }

    #[test]
    fn every_step_that_goes_wrong_is_told() {
        let spoils: [fn(&mut Round); 15] = [
            |round| round.headings.0 = 1,
            |round| round.headings.1 = 2,
            |round| round.first.reason = 12,
            |round| round.then.reason = 5,
            |round| round.then.desk.count -= 1,
            |round| round.then.desk.count = u32::MAX,
            |round| round.then.table[0] ^= 1,
            |round| round.then.table[4] ^= 1,
            |round| round.then.table[12] += 1,
            |round| round.then.table[16] -= 1,
            |round| round.sent.reason = 12,
            |round| round.sent.line = 1,
            |round| round.sent.length -= 1,
            |round| round.sent.buffer[0] ^= 1,
            |round| round.sent.buffer.last_mut().into_iter().for_each(|byte| *byte = 0),
        ];
        for (at, spoil) in spoils.iter().enumerate() {
            let again = again();
            let mut round = round(&again);
            spoil(&mut round);
            assert!(!check_round("one", &again, &round).is_empty(), "spoil {at}");
        }
    }

    #[test]
    fn line_numbers_may_change_but_not_between_programs() {
        let again = again();
        let (ours, mut told) = (round(&again), round(&again));
        told.then.table[8] += 1;
        assert!(check_round("one", &again, &told).is_empty());
        assert!(!other_placings(&ours, &told).is_empty());
    }
}
