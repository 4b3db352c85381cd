//! What is counted of previews: what they say, and which tickets and placings come after them.

use crate::shown::Shown;
use second::desk::{FINE, GONE, NO_ROOM, SPENT};
use second::preview::{Judged, Message};
use second::sitting::{Act, Foretold, Reply, Sat, Sitting};

/// What a preview, a ticket or a placing can be counted as, in the words of the report. A preview's reason is its place here.
const NAMES: [&str; 20] = [
    "accepted", "FEED_LONG", "NO_MESSAGE", "LONG", "BYTE", "FORM", "KEYWORD", "ORDER", "VALUE", "UNIT", "TIME_ORDER", "SHORT",
    "row heard after a preview of another message", "row heard after a preview of a refused message", "GONE before a preview and after it",
    "placed as previewed", "refused as previewed", "NO_ROOM for a message previewed as right", "SPENT whatever was previewed",
    "placing after a preview of another message",
];

const AFTER_OTHER: usize = 12;
const AFTER_REFUSED: usize = 13;
const STILL_GONE: usize = 14;
const PLACED: usize = 15;
const REFUSED: usize = 16;
const NO_ROOM_THEN: usize = 17;
const SPENT_THEN: usize = 18;
const OTHER_PLACED: usize = 19;

/// How many previews, tickets and placings were counted as each.
pub type Previews = Shown<{ NAMES.len() }>;

pub fn previews() -> Previews {
    Shown::new("generated previews", "previews", NAMES)
}

/// What each act of a sitting shows by what it was answered.
pub fn things(sitting: &Sitting, known: &Foretold, sat: &Sat) -> Vec<Vec<usize>> {
    let mut things = Vec::new();
    for (at, (act, reply)) in sitting.acts.iter().zip(&sat.replies).enumerate() {
        let previewed = last_preview(&sitting.acts[..at], &sat.replies[..at]);
        things.push(match (act, reply) {
            (Act::Preview(_), Reply::Judged(said)) => vec![said.reason as usize],
            (Act::Ticket(_), Reply::Row([FINE, ..])) if known.replies[at].is_some() => row_heard(known.of.as_ref(), previewed),
            (Act::Ticket(_), Reply::Row([GONE, ..])) => still_gone(sitting, sat, at, previewed).into_iter().collect(),
            (Act::Place(number), Reply::Placed(outcome)) => {
                let own = Message { feed: sitting.feed.clone(), number: *number };
                placed(&own, outcome.reason, previewed.filter(|preview| preview.at + 1 == at)).into_iter().collect()
            }
            _ => Vec::new(),
        });
    }
    things
}

/// A preview that came before an act, and which act it was.
#[derive(Clone, Copy)]
struct Previewed<'s> {
    at: usize,
    message: &'s Message,
    said: Judged,
}

fn last_preview<'s>(acts: &'s [Act], replies: &[Reply]) -> Option<Previewed<'s>> {
    let turns = acts.iter().zip(replies).enumerate();
    let mut previews = turns.filter_map(|(at, turn)| match turn {
        (Act::Preview(message), Reply::Judged(said)) => Some(Previewed { at, message, said: *said }),
        _ => None,
    });
    previews.next_back()
}

/// A ticket that heard its row, on a desk whose rows are of a message that is known.
fn row_heard(of: Option<&Message>, previewed: Option<Previewed>) -> Vec<usize> {
    let (Some(of), Some(Previewed { message, said, .. })) = (of, previewed) else { return Vec::new() };
    let is_other = (!message.is(of)).then_some(AFTER_OTHER);
    let is_refused = (said.reason != FINE).then_some(AFTER_REFUSED);
    is_other.into_iter().chain(is_refused).collect()
}

/// A ticket that hears GONE, and had heard it before the preview.
fn still_gone(sitting: &Sitting, sat: &Sat, at: usize, previewed: Option<Previewed>) -> Option<usize> {
    let before = 0..previewed?.at;
    let is_same = |other: usize| match (&sitting.acts[other], &sitting.acts[at]) {
        (Act::Ticket(one), Act::Ticket(two)) => one == two && sat.replies[other] == sat.replies[at],
        _ => false,
    };
    before.into_iter().any(is_same).then_some(STILL_GONE)
}

/// A placing right after a preview.
fn placed(own: &Message, reason: u32, previewed: Option<Previewed>) -> Option<usize> {
    let Previewed { message, said, .. } = previewed?;
    match reason {
        _ if !message.is(own) => Some(OTHER_PLACED),
        FINE => Some(PLACED),
        NO_ROOM => (said.reason == FINE).then_some(NO_ROOM_THEN),
        SPENT => (said.reason != SPENT).then_some(SPENT_THEN),
        _ => (said.reason == reason).then_some(REFUSED),
    }
}

#[cfg(test)]
mod tests {
    use super::*;
    use crate::items::{generated_items, Ask};
    use crate::previewing::compare_sitting;
    use crate::tally::Tally;
    use second::bytes::Bytes;
    use second::desk::{reason_name, Desk, Ticket};
    use second::sitting::sit;

    const OEM: &[u8] = b"CCSDS_OEM_VERS=1.0\nCREATION_DATE=2000-001T00:00:00\nORIGINATOR=A\nMETA_START\nOBJECT_NAME=B\nOBJECT_ID=C\n\
        CENTER_NAME=D\nREF_FRAME=E\nTIME_SYSTEM=UTC\nSTART_TIME=2000-001T00:00:00\nSTOP_TIME=2000-001T00:00:00\nMETA_STOP\n\
        2000-01-01T00:00:00 1 2 3 4 5 6\n";

    /// A feed whose messages are right, right and SHORT, and messages and tickets for it.
    struct Book {
        feed: Bytes,
    }

    impl Book {
        fn new() -> Book {
            Book { feed: [OEM, OEM, b"CCSDS_OPM_VERS=1.0\n"].concat().into() }
        }

        fn message(&self, number: u64) -> Message {
            Message { feed: self.feed.clone(), number }
        }

        fn look(&self, number: u64) -> Act {
            Act::Preview(self.message(number))
        }

        /// What each act of a sitting is counted as, on a desk of this load with the rows of message 1.
        fn counted(&self, load: u32, size: usize, acts: Vec<Act>) -> Vec<Vec<usize>> {
            let full = Sitting {
                desk: Desk { load: load - 1, count: 0 },
                feed: self.feed.clone(),
                table: vec![7; 380],
                acts: vec![Act::Place(1)],
            };
            let table = sit(&full).table[..size].to_vec();
            let sitting = Sitting { desk: Desk { load, count: 19 }, feed: self.feed.clone(), table, acts };
            let sat = sit(&sitting);
            let known = Foretold { of: Some(self.message(1)), replies: sat.replies.iter().copied().map(Some).collect(), table: None };
            things(&sitting, &known, &sat)
        }
    }

    fn ticket(load: u32, row: u32) -> Act {
        Act::Ticket(Ticket { load, row })
    }

    #[test]
    fn a_preview_is_counted_by_its_reason() {
        let book = Book::new();
        let other = |feed: &[u8]| Act::Preview(Message { feed: feed.into(), number: 1 });
        let acts =
            vec![book.look(1), book.look(3), book.look(0), book.look(4), other(b"CCSDS_OPM_VERS=1.0\n\t"), other(b"CCSDS_OEM_VERS=x")];
        assert_eq!(book.counted(1, 380, acts), [[0], [11], [2], [2], [4], [8]]);
        (1..=11).zip(&NAMES[1..]).for_each(|(reason, name)| assert_eq!(reason_name(reason), Some(*name)));
    }

    #[test]
    fn a_ticket_is_counted_by_the_preview_before_it() {
        let book = Book::new();
        let acts = vec![ticket(1, 0), book.look(1), ticket(1, 0), book.look(2), ticket(1, 0), book.look(3), ticket(1, 0), ticket(1, 99)];
        let none = Vec::new();
        assert_eq!(
            book.counted(1, 380, acts),
            [none.clone(), vec![0], none.clone(), vec![0], vec![AFTER_OTHER], vec![11], vec![AFTER_OTHER, AFTER_REFUSED], none.clone()]
        );
        let acts = vec![ticket(2, 0), ticket(3, 0), book.look(1), ticket(2, 0), ticket(2, 1), ticket(2, 1), book.look(1), ticket(3, 0)];
        let gone = vec![STILL_GONE];
        assert_eq!(
            book.counted(1, 380, acts),
            [none.clone(), none.clone(), vec![0], gone.clone(), none.clone(), none.clone(), vec![0], gone]
        );
    }

    #[test]
    fn a_placing_is_counted_by_the_preview_right_before_it() {
        let book = Book::new();
        let last = |load, size, acts: &[Act]| book.counted(load, size, acts.to_vec()).pop().expect("acts");
        let placing = |number| Act::Place(number);
        assert_eq!(last(1, 380, &[book.look(1), placing(1)]), [PLACED]);
        assert_eq!(last(1, 380, &[book.look(3), placing(3)]), [REFUSED]);
        assert_eq!(last(1, 380, &[book.look(9), placing(9)]), [REFUSED]);
        assert_eq!(last(1, 379, &[book.look(1), placing(1)]), [NO_ROOM_THEN]);
        assert_eq!(last(u32::MAX, 380, &[book.look(1), placing(1)]), [SPENT_THEN]);
        assert_eq!(last(u32::MAX, 380, &[book.look(3), placing(3)]), [SPENT_THEN]);
        assert_eq!(last(1, 380, &[book.look(1), book.look(2), placing(1)]), [OTHER_PLACED]);
        assert_eq!(last(1, 380, &[book.look(1), ticket(1, 0), placing(1)]), []);
        assert_eq!(last(1, 380, &[placing(1)]), []);
    }

    #[test]
    fn generated_previews_show_everything_often_enough() {
        let seed = 1;
        let mut tally = Tally::new();
        for item in (0..2_000).flat_map(|turn| generated_items(seed, turn)) {
            if let Ask::Sit(sitting, known) = &item.ask {
                assert_eq!(compare_sitting(sitting, known, true, None, &mut tally), Ok(Vec::new()), "{}", item.name);
            }
        }
        println!("seed {seed}: {}", tally.previews.words());
        // A tenth of the feeds of a whole run, and twice the floor, so that a run has some to spare.
        assert_eq!(tally.previews.rare(20), Vec::<String>::new());
    }
}
