//! Sittings: tickets, previews and placings in turn, with one feed and one table lent from the first to the last, and the desk handed on as it came
//! back. A preview takes neither desk nor table, so after it everything goes on as if it had not been.

use crate::bytes::Bytes;
use crate::desk::{as_told, hear, place, Desk, Image, Outcome, Placing, Ticket};
use crate::preview::{preview, Judged, Message};

/// All that goes into a sitting.
#[derive(Clone, Debug)]
pub struct Sitting {
    pub desk: Desk,
    pub feed: Bytes,
    pub table: Vec<u8>,
    pub acts: Vec<Act>,
}

impl Sitting {
    /// The feeds that are previewed and are not its own, each once.
    pub fn beside(&self) -> Vec<&Bytes> {
        let mut beside: Vec<&Bytes> = Vec::new();
        for act in &self.acts {
            if let Act::Preview(Message { feed, .. }) = act {
                if !feed.is(&self.feed) && !beside.iter().any(|other| other.is(feed)) {
                    beside.push(feed);
                }
            }
        }
        beside
    }
}

/// What is done in a sitting, one after the other.
#[derive(Clone, Debug)]
pub enum Act {
    Ticket(Ticket),
    /// A message of any feed.
    Preview(Message),
    /// The message with this number of the sitting's own feed.
    Place(u64),
}

/// What an act is answered; a ticket as the C struct has it.
#[derive(Clone, Copy, Debug, PartialEq, Eq)]
pub enum Reply {
    Row([u32; 6]),
    Judged(Judged),
    Placed(Outcome),
}

/// All that comes out of a sitting: an answer for each act, and the table as it is then.
#[derive(Clone, Debug, PartialEq, Eq)]
pub struct Sat {
    pub replies: Vec<Reply>,
    pub table: Vec<u8>,
}

/// What is known of a sitting beforehand.
#[derive(Clone, Debug)]
pub struct Foretold {
    /// The message that the desk's rows are of.
    pub of: Option<Message>,
    pub replies: Vec<Option<Reply>>,
    /// The table at the end, if it is not as it was lent.
    pub table: Option<Vec<u8>>,
}

/// What comes of a sitting.
pub fn sit(sitting: &Sitting) -> Sat {
    let mut host = Host { desk: sitting.desk, table: sitting.table.clone(), image: None };
    let replies = sitting.acts.iter().map(|act| host.reply(&sitting.feed, act)).collect();
    Sat { replies, table: host.table }
}

/// What is handed on from act to act.
struct Host {
    desk: Desk,
    table: Vec<u8>,
    /// The table's numbers, once a ticket has asked for them.
    image: Option<Image>,
}

impl Host {
    fn reply(&mut self, feed: &Bytes, act: &Act) -> Reply {
        match act {
            Act::Ticket(ticket) => {
                let image = self.image.get_or_insert_with(|| Image::of(&self.table));
                Reply::Row(as_told(&hear(self.desk, *ticket, feed, image)))
            }
            Act::Preview(message) => Reply::Judged(preview(message)),
            Act::Place(message) => {
                self.place(Placing { desk: self.desk, feed: feed.clone(), message: *message, table: self.table.clone() })
            }
        }
    }

    fn place(&mut self, placing: Placing) -> Reply {
        let placed = place(&placing);
        let reply = Reply::Placed(placed.outcome());
        (self.desk, self.table, self.image) = (placed.desk, placed.table, None);
        reply
    }
}

#[cfg(test)]
mod tests {
    use super::*;
    use crate::desk::{read, Reading, FINE, FRESH, GONE, NO_ROW};

    const OEM: &[u8] = b"CCSDS_OEM_VERS=1.0\nCREATION_DATE=2000-001T00:00:00\nORIGINATOR=A\nMETA_START\nOBJECT_NAME=B\nOBJECT_ID=C\n\
        CENTER_NAME=D\nREF_FRAME=E\nTIME_SYSTEM=UTC\nSTART_TIME=2000-001T00:00:00\nSTOP_TIME=2000-001T00:00:00\nMETA_STOP\n\
        2000-01-01T00:00:00 1 2 3 4 5 6";

    /// A sitting on a fresh desk with room for all rows.
    fn sitting(acts: Vec<Act>) -> Sitting {
        Sitting { desk: FRESH, feed: OEM.into(), table: vec![7; 383], acts }
    }

    fn ticket(load: u32, row: u32) -> Act {
        Act::Ticket(Ticket { load, row })
    }

    #[test]
    fn the_desk_and_the_table_are_handed_on() {
        let sat = sit(&sitting(vec![ticket(1, 18), Act::Place(1), ticket(1, 18), Act::Place(2), ticket(1, 18), ticket(2, 18)]));
        let placed = place(&Placing { desk: FRESH, feed: OEM.into(), message: 1, table: vec![7; 383] });
        let reading =
            Reading { desk: placed.desk, feed: OEM.into(), table: placed.table.clone(), tickets: vec![Ticket { load: 1, row: 18 }] };
        let refused = |reason| Reply::Row([reason, 0, 0, 0, 0, 0]);
        let outcome = |load, count, reason| Reply::Placed(Outcome { desk: Desk { load, count }, reason, line: 0 });
        let row = Reply::Row(as_told(&read(&reading)[0]));
        assert!(matches!(row, Reply::Row([FINE, 15, ..])));
        assert_eq!(sat.replies, [refused(GONE), outcome(1, 19, FINE), row, outcome(2, 0, 2), refused(GONE), refused(NO_ROW)]);
        assert!(sat.table == placed.table && sat.table != [7; 383]);
    }

    #[test]
    fn a_sitting_goes_on_as_if_there_were_no_previews() {
        let preview = |feed: &[u8], number| Act::Preview(Message { feed: feed.into(), number });
        let acts = [ticket(0, 0), Act::Place(1), ticket(1, 3), ticket(2, 3), Act::Place(2), ticket(1, 3), Act::Place(1), ticket(3, 3)];
        let without = sit(&sitting(acts.to_vec()));
        let run = [preview(OEM, 1), preview(OEM, 2), preview(b"", 1), preview(b"CCSDS_OPM_VERS=1.0", 1)];
        let with = sit(&sitting(acts.iter().flat_map(|act| [&run[..], &[act.clone()]].concat()).collect()));
        let (said, others): (Vec<Reply>, Vec<Reply>) = with.replies.iter().partition(|reply| matches!(reply, Reply::Judged(_)));
        assert_eq!((others, with.table), (without.replies, without.table));
        let judged = |reason, line, rows| Reply::Judged(Judged { reason, line, rows });
        assert_eq!(said, [judged(FINE, 0, 19), judged(2, 0, 0), judged(2, 0, 0), judged(11, 2, 0)].repeat(8));
    }

    #[test]
    fn feeds_beside_are_told_once_each() {
        let (own, one, two): (Bytes, Bytes, Bytes) = (OEM.into(), b"a"[..].into(), b"a"[..].into());
        let preview = |feed: &Bytes| Act::Preview(Message { feed: feed.clone(), number: 1 });
        let acts = vec![preview(&one), preview(&own), ticket(1, 1), preview(&two), preview(&one), Act::Place(1)];
        let sitting = Sitting { feed: own.clone(), ..sitting(acts) };
        let beside = sitting.beside();
        assert!(beside.len() == 2 && beside[0].is(&one) && beside[1].is(&two));
    }
}
