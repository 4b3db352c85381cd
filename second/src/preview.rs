//! Previews: a message judged, with no desk, no table and no ticket ended, and what that says of a placing of the same message.

use crate::bytes::Bytes;
use crate::desk::{Desk, Outcome, FINE, NO_ROOM, SPENT};
use crate::judge::{judge, Answer, Reason};

/// A message of a feed, by its number from 1.
#[derive(Clone, Debug)]
pub struct Message {
    pub feed: Bytes,
    pub number: u64,
}

impl Message {
    /// Whether it is the same number of the same feed.
    pub fn is(&self, other: &Message) -> bool {
        self.feed.is(&other.feed) && self.number == other.number
    }
}

/// What judging says of a message: reason, line and rows, as the C struct has them.
#[derive(Clone, Copy, Debug, PartialEq, Eq)]
pub struct Judged {
    pub reason: u32,
    pub line: u32,
    pub rows: u32,
}

impl Judged {
    pub fn accepted(rows: usize) -> Judged {
        Judged { reason: FINE, line: 0, rows: rows as u32 }
    }

    pub fn refused(reason: Reason, line: usize) -> Judged {
        Judged { reason: reason.number(), line: line as u32, rows: 0 }
    }

    pub fn of(answer: &Answer) -> Judged {
        match answer {
            Answer::Accepted(rows) => Judged::accepted(rows.len()),
            Answer::Refused { reason, line } => Judged::refused(*reason, *line),
        }
    }
}

/// What a preview says of a message.
pub fn preview(message: &Message) -> Judged {
    Judged::of(&judge(&message.feed, message.number))
}

/// What a placing is due by what a preview of its message said, on this desk and with a table of so many bytes. Feed and message are not looked at.
pub fn due(said: Judged, desk: Desk, table: usize) -> Outcome {
    let Some(load) = desk.load.checked_add(1) else { return Outcome { desk, reason: SPENT, line: 0 } };
    let fits = said.rows as usize <= table / 20;
    match said.reason {
        FINE if fits => Outcome { desk: Desk { load, count: said.rows }, reason: FINE, line: 0 },
        FINE => Outcome { desk: Desk { load, count: 0 }, reason: NO_ROOM, line: 0 },
        reason => Outcome { desk: Desk { load, count: 0 }, reason, line: said.line },
    }
}

#[cfg(test)]
mod tests {
    use super::*;

    const TOP: u32 = u32::MAX;

    fn outcome(load: u32, count: u32, reason: u32, line: u32) -> Outcome {
        Outcome { desk: Desk { load, count }, reason, line }
    }

    #[test]
    fn a_placing_is_due_what_the_preview_said() {
        let desk = Desk { load: 6, count: 3 };
        assert_eq!(due(Judged::accepted(19), desk, 380), outcome(7, 19, FINE, 0));
        assert_eq!(due(Judged::accepted(19), desk, 379), outcome(7, 0, NO_ROOM, 0));
        assert_eq!(due(Judged::refused(Reason::FeedLong, 0), desk, 0), outcome(7, 0, 1, 0));
        assert_eq!(due(Judged::refused(Reason::Short, 13), desk, 380), outcome(7, 0, 11, 13));
        assert_eq!(due(Judged::refused(Reason::Short, 13), Desk { load: TOP - 1, count: 3 }, 0), outcome(TOP, 0, 11, 13));
    }

    #[test]
    fn at_the_top_it_is_due_spent_whatever_the_preview_said() {
        let desk = Desk { load: TOP, count: 3 };
        for said in [Judged::accepted(19), Judged::accepted(0), Judged::refused(Reason::NoMessage, 0), Judged::refused(Reason::Order, 9)] {
            assert_eq!(due(said, desk, 380), outcome(TOP, 3, SPENT, 0));
        }
    }

    #[test]
    fn a_message_is_its_feed_and_its_number() {
        let feed: Bytes = b"ab"[..].into();
        let message = |feed: &Bytes, number| Message { feed: feed.clone(), number };
        assert!(message(&feed, 1).is(&message(&feed, 1)));
        assert!(!message(&feed, 1).is(&message(&feed, 2)));
        assert!(!message(&feed, 1).is(&message(&b"ab"[..].into(), 1)));
    }

    #[test]
    fn a_preview_is_the_judgement() {
        let said = |feed: &[u8], number| preview(&Message { feed: feed.into(), number });
        assert_eq!(said(b"", 1), Judged { reason: 2, line: 0, rows: 0 });
        assert_eq!(said(b"CCSDS_OPM_VERS=1.0\n", 1), Judged { reason: 11, line: 2, rows: 0 });
        assert_eq!(said(b"CCSDS_OPM_VERS=2.0\n", 1), Judged { reason: 8, line: 1, rows: 0 });
    }
}
