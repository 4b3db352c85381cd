//! Puts previews among the calls of a session: right before placings, between a placing and its tickets, and between tickets.
//! Nothing else is foretold anew: a preview changes nothing, so every other answer stays as the session has foretold it.

use crate::aims::{aimed, Aimed};
use crate::bytes::Bytes;
use crate::desk::{as_told, Heard, Placed, Placing, Reading, FINE, SPENT};
use crate::dice::Dice;
use crate::judge::{Feed, Reason, REASONS};
use crate::preview::{Judged, Message};
use crate::session::{any_number, Step};
use crate::sitting::{Act, Foretold, Reply, Sitting};

/// A feed of a session, and how many rows each of its messages has, if it was made sound.
pub struct Lent {
    pub feed: Bytes,
    pub rows: Option<Vec<usize>>,
}

/// So many in a hundred readings have previews before and between their tickets, and so many placings have some before them.
const READINGS: usize = 25;
const PLACINGS: usize = 30;

/// So many in a hundred of those readings have some of their tickets read before the previews as well, and so many have previews between tickets.
const BEFORE: usize = 60;
const BETWEEN: usize = 30;

/// So many in a hundred previews right before a placing are of the message that is placed.
const SAME: usize = 60;

/// So many in a hundred other previews are of a message that is wrong by a reason aimed at, and so many of the feed that the desk's rows are of.
const AIMED: usize = 10;
const PRESENT: usize = 45;

/// The steps of a session with previews among them.
pub fn with_previews(steps: Vec<Step>, feeds: &[Lent], dice: &mut Dice) -> Vec<Step> {
    let counts = feeds.iter().map(|lent| Feed::new(&lent.feed).headings().unwrap_or(0) as u64).collect();
    let mut looker = Looker { dice, feeds, counts, of: None };
    steps.into_iter().map(|step| looker.step(step)).collect()
}

/// An act, and what it must be answered if that is known.
type Turn = (Act, Option<Reply>);

/// One who looks at messages while the session goes on.
struct Looker<'s> {
    dice: &'s mut Dice,
    feeds: &'s [Lent],
    /// How many messages each feed has.
    counts: Vec<u64>,
    /// The message that the desk's rows are of, if that is known.
    of: Option<Message>,
}

impl Looker<'_> {
    fn step(&mut self, step: Step) -> Step {
        match step {
            Step::Place(placing, placed) => {
                let own = Message { feed: placing.feed.clone(), number: placing.message };
                let of = match placed.reason {
                    SPENT => self.of.clone(),
                    FINE => Some(own.clone()),
                    _ => None,
                };
                let step = if self.dice.percent(PLACINGS) { self.before(own, placing, placed) } else { Step::Place(placing, placed) };
                self.of = of;
                step
            }
            Step::Read(reading, heard) if self.dice.percent(READINGS) => self.among(reading, heard),
            step => step,
        }
    }

    /// Previews and then the placing; the last one is mostly of its own message.
    fn before(&mut self, own: Message, placing: Placing, placed: Placed) -> Step {
        let mut turns: Vec<Turn> = (0..self.dice.pick(&[0, 0, 1, 2])).map(|_| self.any_preview()).collect();
        turns.push(if self.dice.percent(SAME) { self.preview(own) } else { self.other_preview(&own) });
        turns.push((Act::Place(placing.message), Some(Reply::Placed(placed.outcome()))));
        let Placing { desk, feed, table, .. } = placing;
        self.sit(Sitting { desk, feed, table, acts: Vec::new() }, turns, Some(placed.table))
    }

    /// Previews before and between the tickets, of which some are read before the previews as well.
    fn among(&mut self, reading: Reading, heard: Vec<Option<Heard>>) -> Step {
        let Reading { desk, feed, table, tickets } = reading;
        let known = heard.iter().map(|heard| heard.as_ref().map(|heard| Reply::Row(as_told(heard))));
        let tickets: Vec<Turn> = tickets.into_iter().map(Act::Ticket).zip(known).collect();
        let early = if self.dice.percent(BEFORE) { self.dice.between(1, tickets.len()) } else { 0 };
        let late = if self.dice.percent(BETWEEN) { self.dice.below(tickets.len()) } else { 0 };
        let mut turns = tickets[..early].to_vec();
        turns.extend(self.run());
        turns.extend_from_slice(&tickets[..late]);
        if late > 0 {
            turns.extend(self.run());
        }
        turns.extend_from_slice(&tickets[late..]);
        self.sit(Sitting { desk, feed, table, acts: Vec::new() }, turns, None)
    }

    fn sit(&self, sitting: Sitting, turns: Vec<Turn>, table: Option<Vec<u8>>) -> Step {
        let (acts, replies) = turns.into_iter().unzip();
        Step::Sit(Sitting { acts, ..sitting }, Foretold { of: self.of.clone(), replies, table })
    }

    /// One preview or a few.
    fn run(&mut self) -> Vec<Turn> {
        (0..self.dice.pick(&[1, 1, 2, 3])).map(|_| self.any_preview()).collect()
    }

    /// A message of any feed of the session, mostly one that there is, or one of another feed that is wrong for certain.
    fn any_preview(&mut self) -> Turn {
        if self.dice.percent(AIMED) {
            return self.aimed_preview();
        }
        let present = self.of.as_ref().and_then(|of| self.feeds.iter().position(|lent| lent.feed.is(&of.feed)));
        let any = self.dice.below(self.feeds.len());
        let at = present.filter(|_| self.dice.percent(PRESENT)).unwrap_or(any);
        let number = any_number(self.counts[at], self.dice);
        self.preview(Message { feed: self.feeds[at].feed.clone(), number })
    }

    fn aimed_preview(&mut self) -> Turn {
        let reason = self.dice.pick(&REASONS[2..]);
        let Aimed { feed, message, known } = aimed(reason, self.dice);
        (Act::Preview(Message { feed, number: message }), Some(Reply::Judged(Judged::refused(reason, known.line as usize))))
    }

    /// A message that could be taken for this one: the one beside it, or the one with its number in another feed; or any.
    fn other_preview(&mut self, own: &Message) -> Turn {
        let Message { feed, number } = own;
        match self.dice.below(4) {
            0 => self.preview(Message { feed: feed.clone(), number: number.wrapping_add(1) }),
            1 => self.preview(Message { feed: feed.clone(), number: number.wrapping_sub(1) }),
            2 => {
                let at = self.dice.below(self.feeds.len());
                self.preview(Message { feed: self.feeds[at].feed.clone(), number: *number })
            }
            _ => self.any_preview(),
        }
    }

    fn preview(&self, message: Message) -> Turn {
        let known = self.known(&message).map(Reply::Judged);
        (Act::Preview(message), known)
    }

    /// What must be said of a message, by the rows of the one who made its feed.
    fn known(&self, message: &Message) -> Option<Judged> {
        let rows = self.feeds.iter().find(|lent| lent.feed.is(&message.feed))?.rows.as_ref()?;
        let own = (1..).zip(rows).find(|(number, _)| *number == message.number);
        Some(own.map_or(Judged::refused(Reason::NoMessage, 0), |(_, rows)| Judged::accepted(*rows)))
    }
}

#[cfg(test)]
mod tests {
    use super::*;
    use crate::desk::Ticket;
    use crate::preview::preview;
    use crate::session::session;

    const OEM: &[u8] = b"CCSDS_OEM_VERS=1.0\nCREATION_DATE=2000-001T00:00:00\nORIGINATOR=A\nMETA_START\nOBJECT_NAME=B\nOBJECT_ID=C\n\
        CENTER_NAME=D\nREF_FRAME=E\nTIME_SYSTEM=UTC\nSTART_TIME=2000-001T00:00:00\nSTOP_TIME=2000-001T00:00:00\nMETA_STOP\n\
        2000-01-01T00:00:00 1 2 3 4 5 6\n";

    /// A feed of two right messages, told to be sound, and one of a right and a wrong message.
    fn feeds() -> [Lent; 2] {
        let sound = Lent { feed: [OEM, OEM].concat().into(), rows: Some(vec![19, 19]) };
        [sound, Lent { feed: [OEM, &OEM[..40]].concat().into(), rows: None }]
    }

    /// The sittings of many sessions.
    fn sittings(feeds: &[Lent]) -> Vec<(Sitting, Foretold)> {
        let steps = (0..300).flat_map(|turn| session(feeds, &mut Dice::new(5, turn), &mut Dice::new(6, turn)));
        let sittings = steps.filter_map(|step| if let Step::Sit(sitting, known) = step { Some((sitting, known)) } else { None });
        sittings.collect()
    }

    fn previewed(act: &Act) -> Option<&Message> {
        if let Act::Preview(message) = act {
            Some(message)
        } else {
            None
        }
    }

    #[test]
    fn what_is_foretold_of_a_preview_is_what_it_says() {
        let mut known = [0, 0, 0];
        for (sitting, foretold) in sittings(&feeds()) {
            for (message, reply) in sitting.acts.iter().zip(foretold.replies).filter_map(|(act, reply)| Some((previewed(act)?, reply?))) {
                let said = preview(message);
                assert_eq!(reply, Reply::Judged(said));
                known[[FINE, 2].iter().position(|reason| *reason == said.reason).unwrap_or(2)] += 1;
            }
        }
        // Accepted, NO_MESSAGE, and those that were aimed at.
        assert!(known.into_iter().all(|count| count > 50), "{known:?}");
    }

    #[test]
    fn a_sitting_has_a_run_of_previews_before_its_tickets_or_its_placing() {
        let (mut early, mut between) = (0, 0);
        for (sitting, foretold) in sittings(&feeds()) {
            let is: Vec<bool> = sitting.acts.iter().map(|act| previewed(act).is_some()).collect();
            let runs = is.windows(2).filter(|pair| pair[1] && !pair[0]).count() + usize::from(is[0]);
            let places = sitting.acts.iter().filter(|act| matches!(act, Act::Place(_))).count();
            assert!(is.contains(&true) && !is[is.len() - 1]);
            assert!(places == 0 || places == 1 && runs == 1 && is[0] && is[is.len() - 2] && foretold.table.is_some());
            early += usize::from(!is[0]);
            between += usize::from(runs == 2);
        }
        assert!(early > 50 && between > 20, "{early} early, {between} between");
    }

    #[test]
    fn a_desk_is_known_by_the_message_of_its_rows() {
        let feeds = feeds();
        let rows_of = |of: &Option<Message>| of.as_ref().map(|of| preview(of).rows);
        for (sitting, foretold) in sittings(&feeds) {
            if let Some(rows) = rows_of(&foretold.of) {
                assert_eq!(rows, sitting.desk.count);
            }
            let heard = sitting.acts.iter().zip(&foretold.replies).any(|(act, reply)| match (act, reply) {
                (Act::Ticket(Ticket { load, .. }), Some(Reply::Row([FINE, ..]))) => *load == sitting.desk.load,
                _ => false,
            });
            assert!(!heard || foretold.of.is_some());
        }
    }
}
