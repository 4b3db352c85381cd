//! Makes sessions on one desk: placings one after the other, and after each placing tickets, with feed and table at times not as it left them, and
//! previews among them.
//! Every answer is foretold without the desk's own code: a placing's table is written byte after byte, and what a ticket hears comes from
//! the judge's rows and the lengths of feed and table alone.

use crate::bytes::Bytes;
use crate::desk::{Desk, Heard, Placed, Placing, Reading, Ticket, ASTRAY, FINE, FRESH, GONE, NO_ROOM, NO_ROW, SPENT};
use crate::dice::Dice;
use crate::judge::{Answer, Feed, Row, FEED_LIMIT};
use crate::sitting::{Foretold, Sitting};
use crate::sittings::{with_previews, Lent};

/// A call on the desk, and what must be answered; of a ticket on bytes that no placing has written nothing is foretold.
pub enum Step {
    Place(Placing, Placed),
    Read(Reading, Vec<Option<Heard>>),
    Sit(Sitting, Foretold),
}

const TOP: u32 = u32::MAX;

/// So many in a thousand feeds that are lengthened for a reading are then longer than a placing would take.
const OVER: usize = 30;

/// A session with these feeds; most placings are of the first one. The previews have dice of their own.
pub fn session(feeds: &[Lent], dice: &mut Dice, luck: &mut Dice) -> Vec<Step> {
    with_previews(placings_and_tickets(feeds, dice), feeds, luck)
}

fn placings_and_tickets(feeds: &[Lent], dice: &mut Dice) -> Vec<Step> {
    let desk = any_desk(dice);
    let size = dice.below(600);
    let table = any_bytes(dice, size);
    // What a desk holds that comes from elsewhere is not known.
    let rows = (desk.count == 0).then(Vec::new);
    let mut session = Session { dice, feeds, desk, feed: feeds[0].feed.clone(), table, rows, kept: Vec::new(), steps: Vec::new() };
    if session.dice.percent(if desk == FRESH { 20 } else { 60 }) {
        session.read();
    }
    for _ in 0..session.dice.pick(&[1, 2, 2, 3, 3, 4, 6]) {
        session.place();
        (0..session.dice.pick(&[1, 1, 2])).for_each(|_| session.read());
    }
    session.steps
}

/// Most desks are fresh; some are at the top or close to it.
fn any_desk(dice: &mut Dice) -> Desk {
    let count = dice.pick(&[0, 0, 1, 7, 20, 65_536, TOP]);
    match dice.below(20) {
        0..=13 => FRESH,
        14 | 15 => Desk { load: TOP - dice.below(4) as u32, count },
        16 => Desk { load: dice.roll() as u32, count },
        _ => Desk { load: dice.pick(&[0, 1, 255, 65_534, 65_535, 0x7FFF_FFFF, 0x8000_0000]), count },
    }
}

/// Mostly a message that there is, of so many.
pub(crate) fn any_number(count: u64, dice: &mut Dice) -> u64 {
    if count > 0 && dice.percent(92) {
        return 1 + dice.below(count as usize) as u64;
    }
    dice.pick(&[0, count + 1, count + 1, count + 2, 65_537, (1 << 32) + 1, 1 << 63, u64::MAX])
}

fn any_bytes(dice: &mut Dice, size: usize) -> Vec<u8> {
    (0..size).map(|_| dice.byte()).collect()
}

/// A session as it goes on.
struct Session<'s> {
    dice: &'s mut Dice,
    feeds: &'s [Lent],
    desk: Desk,
    /// The feed and the table of the last placing that was not refused as spent.
    feed: Bytes,
    table: Vec<u8>,
    /// The rows that the desk holds, if that is known.
    rows: Option<Vec<Row>>,
    /// Tickets of this load and of those before.
    kept: Vec<Ticket>,
    steps: Vec<Step>,
}

impl Session<'_> {
    fn place(&mut self) {
        let at = if self.dice.percent(60) { 0 } else { self.dice.below(self.feeds.len()) };
        let feed = self.feeds[at].feed.clone();
        let lines = Feed::new(&feed);
        // A feed that is too long counts as one without messages, so that any number is asked for.
        let message = any_number(lines.headings().unwrap_or(0) as u64, self.dice);
        let judged = lines.judge(message);
        let rows = if let Answer::Accepted(rows) = &judged { rows.len() } else { self.dice.below(40) };
        let placing = Placing { desk: self.desk, feed: feed.clone(), message, table: self.table_for(20 * rows) };
        let placed = foretold_placing(&placing, &judged);
        if placed.reason != SPENT {
            self.go_on(feed, &placed, judged);
        }
        self.steps.push(Step::Place(placing, placed));
    }

    /// The desk and the table that came back are handed on, and some tickets are kept.
    fn go_on(&mut self, feed: Bytes, placed: &Placed, judged: Answer) {
        self.feed = feed;
        self.desk = placed.desk;
        self.table.clone_from(&placed.table);
        self.rows = Some(match judged {
            Answer::Accepted(rows) if placed.reason == FINE => rows,
            _ => Vec::new(),
        });
        for _ in 0..self.dice.below(3) {
            self.kept.push(Ticket { load: self.desk.load, row: self.dice.below(self.desk.count as usize) as u32 });
        }
    }

    /// A table of about as many bytes as are needed: the one at hand, cut or lengthened, or any other.
    fn table_for(&mut self, needed: usize) -> Vec<u8> {
        let size = match self.dice.below(12) {
            0 => self.dice.below(needed + 1),
            1 => self.dice.pick(&[0, 1, 19, needed / 5, needed / 2]),
            2..=5 => (needed + self.dice.below(9)).saturating_sub(4),
            6..=8 => needed + self.dice.below(60),
            _ => needed + self.dice.below(800),
        };
        let mut table = if self.dice.percent(50) { self.table.clone() } else { Vec::new() };
        table.truncate(size);
        let missing = size - table.len();
        table.extend(any_bytes(self.dice, missing));
        table
    }

    fn read(&mut self) {
        // A desk without rows has little to say.
        let most = if self.desk.count == 0 { 3 } else { 8 };
        let tickets: Vec<Ticket> = (0..self.dice.between(1, most)).map(|_| self.ticket()).collect();
        let aim = self.dice.pick(&tickets).row as usize;
        let feed = self.lent_feed(aim);
        let (table, changed) = self.lent_table(aim, feed.len());
        let known = tickets.iter().map(|ticket| self.foretold(*ticket, feed.len(), table.len(), changed)).collect();
        self.steps.push(Step::Read(Reading { desk: self.desk, feed, table, tickets }, known));
    }

    /// A ticket of this load, of one before, of one to come, or of none.
    fn ticket(&mut self) -> Ticket {
        let Desk { load, count } = self.desk;
        let row = self.dice.below(count as usize) as u32;
        match self.dice.below(20) {
            0..=3 if !self.kept.is_empty() => self.dice.pick(&self.kept),
            4 | 5 => Ticket { load, row: self.dice.pick(&[count, count, count.saturating_add(1), count.saturating_add(65_536), TOP]) },
            6 | 7 => Ticket { load: self.dice.pick(&[load.wrapping_add(1), load.wrapping_add(2), load.wrapping_add(65_536), TOP]), row },
            8 | 9 => Ticket { load: self.dice.pick(&[load.wrapping_sub(1), load / 2, 0, load & 0xFFFF]), row },
            10 => Ticket { load: row, row: load },
            11 => Ticket { load, row: self.far_row() },
            _ => Ticket { load, row },
        }
    }

    /// A row far out; the places of some, in bytes or in entries, would come back to the front of the table in 16 or 32 bits.
    fn far_row(&mut self) -> u32 {
        let any = self.dice.roll() as u32;
        self.dice.pick(&[65_535, 65_536, 214_748_365, 429_496_730, 858_993_460, 1_288_490_189, 0x8000_0000, any])
    }

    /// Where the value of a row ends, if that is known.
    fn value_end(&self, row: usize) -> Option<usize> {
        self.rows.as_ref()?.get(row).map(end)
    }

    /// The feed of the load, at times cut, lengthened or another; cuts aim at the end of a row's value.
    fn lent_feed(&mut self, aim: usize) -> Bytes {
        let feed = self.feed.clone();
        match (self.dice.below(20), self.value_end(aim)) {
            (0, _) => Vec::new().into(),
            (1, _) => feed.cut(self.dice.between(0, feed.len())),
            (2..=5, Some(end)) => feed.cut((end + self.dice.below(3)).saturating_sub(1).min(feed.len())),
            (6 | 7, _) => {
                let size = if self.dice.below(1000) < OVER { feed.len().max(FEED_LIMIT) } else { feed.len() };
                Bytes::padded(&feed[..], size + self.dice.between(1, 200), b' ')
            }
            (8, _) => self.feeds[self.dice.below(self.feeds.len())].feed.clone(),
            _ => feed,
        }
    }

    /// The table of the load, at times cut or lengthened, and whether numbers in it were changed; cuts aim at the end of a row.
    fn lent_table(&mut self, aim: usize, feed: usize) -> (Vec<u8>, bool) {
        let mut table = self.table.clone();
        match self.dice.below(20) {
            0 => table.clear(),
            1 => table.truncate(self.dice.between(0, self.table.len())),
            2..=5 => table.truncate(20 * aim + self.dice.between(15, 24)),
            6 | 7 => {
                let more = self.dice.between(1, 200);
                table.extend(any_bytes(self.dice, more));
            }
            8 | 9 => {
                self.change_numbers(&mut table, aim, feed);
                return (table, true);
            }
            _ => {}
        }
        (table, false)
    }

    /// Gives a row numbers that no placing would have given it.
    fn change_numbers(&mut self, table: &mut [u8], aim: usize, feed: usize) {
        let feed = feed as u32;
        for four in table.chunks_exact_mut(4).skip(5 * aim).take(5) {
            if self.dice.percent(50) {
                let any = self.dice.roll() as u32;
                let number = self.dice.pick(&[0, 1, 65_535, 65_536, 0x8000_0000, TOP, feed, feed / 2, any]);
                four.copy_from_slice(&number.to_le_bytes());
            }
        }
    }

    /// What a ticket must hear, if that is known.
    fn foretold(&self, ticket: Ticket, feed: usize, table: usize, changed: bool) -> Option<Heard> {
        if ticket.load != self.desk.load {
            return Some(Err(GONE));
        }
        if ticket.row >= self.desk.count {
            return Some(Err(NO_ROW));
        }
        let row = self.rows.as_ref().filter(|_| !changed)?[ticket.row as usize];
        let whole = table >= 20 * (ticket.row as usize + 1) && feed >= end(&row);
        Some(if whole { Ok(row) } else { Err(ASTRAY) })
    }
}

fn end(row: &Row) -> usize {
    row.start as usize + row.length as usize
}

/// What a placing must come to, by what the judge says of its message.
fn foretold_placing(placing: &Placing, judged: &Answer) -> Placed {
    let mut placed = Placed { desk: placing.desk, reason: SPENT, line: 0, table: placing.table.clone() };
    if placing.desk.load == TOP {
        return placed;
    }
    placed.desk = Desk { load: placing.desk.load + 1, count: 0 };
    match judged {
        Answer::Refused { reason, line } => (placed.reason, placed.line) = (reason.number(), *line as u32),
        Answer::Accepted(rows) if placing.table.len() < 20 * rows.len() => placed.reason = NO_ROOM,
        Answer::Accepted(rows) => {
            placed.reason = FINE;
            placed.desk.count = rows.len() as u32;
            write_rows(&mut placed.table, rows);
        }
    }
    placed
}

fn write_rows(table: &mut [u8], rows: &[Row]) {
    for (at, row) in rows.iter().enumerate() {
        for (field, number) in [row.code, row.group, row.line, row.start, row.length].into_iter().enumerate() {
            (0..4).for_each(|byte| table[20 * at + 4 * field + byte] = (number >> (8 * byte)) as u8);
        }
    }
}

#[cfg(test)]
mod tests {
    use super::*;
    use crate::desk::{as_told, place, read};
    use crate::make::{draft, write, Written};
    use crate::sitting::{sit, Act, Reply};

    /// Two sound feeds, and whether they are told to be.
    fn any_feeds(turn: u64, dice: &mut Dice) -> Vec<Lent> {
        let lent = |Written { feed, rows, .. }: Written| Lent {
            feed: feed.into(),
            rows: (turn % 2 == 0).then(|| rows.iter().map(Vec::len).collect()),
        };
        (0..2).map(|_| lent(write(&draft(dice), dice))).collect()
    }

    fn any_session(turn: u64) -> Vec<Step> {
        let mut dice = Dice::new(17, turn);
        let feeds = any_feeds(turn, &mut dice);
        session(&feeds, &mut dice, &mut Dice::new(18, turn))
    }

    #[test]
    fn the_desk_answers_as_foretold() {
        for turn in 0..300 {
            for step in any_session(turn) {
                match step {
                    Step::Place(placing, placed) => assert_eq!(place(&placing), placed, "turn {turn}"),
                    Step::Read(reading, known) => {
                        let heard = read(&reading);
                        known.iter().zip(heard).for_each(|(known, heard)| assert!(known.is_none_or(|known| known == heard), "turn {turn}"));
                    }
                    Step::Sit(sitting, Foretold { replies, table, .. }) => {
                        let sat = sit(&sitting);
                        replies.iter().zip(sat.replies).for_each(|(known, reply)| {
                            assert!(known.is_none_or(|known| known == reply), "turn {turn}");
                        });
                        assert_eq!(sat.table, table.unwrap_or(sitting.table), "turn {turn}");
                    }
                }
            }
        }
    }

    /// A step without its previews: what is lent, and the acts from the first preview on with what is foretold of them.
    fn plain(step: &Step) -> (Desk, &[u8], &[u8], Vec<String>) {
        let words = |(act, reply): (&Act, Option<Reply>)| format!("{act:?}: {reply:?}");
        match step {
            Step::Place(Placing { desk, feed, message, table }, placed) => {
                (*desk, feed, table, vec![words((&Act::Place(*message), Some(Reply::Placed(placed.outcome()))))])
            }
            Step::Read(Reading { desk, feed, table, tickets }, heard) => {
                let told = heard.iter().map(|heard| heard.map(|heard| Reply::Row(as_told(&heard))));
                let acts: Vec<Act> = tickets.iter().copied().map(Act::Ticket).collect();
                (*desk, feed, table, acts.iter().zip(told).map(words).collect())
            }
            Step::Sit(Sitting { desk, feed, table, acts }, foretold) => {
                let is_preview = |act: &Act| matches!(act, Act::Preview(_));
                let turns = acts.iter().zip(foretold.replies.iter().copied()).skip_while(|(act, _)| !is_preview(act));
                (*desk, feed, table, turns.filter(|(act, _)| !is_preview(act)).map(words).collect())
            }
        }
    }

    #[test]
    fn previews_leave_a_session_as_it_is() {
        let mut sittings = 0;
        for turn in 0..100 {
            let mut dice = Dice::new(17, turn);
            let feeds = any_feeds(turn, &mut dice);
            let before = placings_and_tickets(&feeds, &mut dice.clone());
            let with = session(&feeds, &mut dice, &mut Dice::new(18, turn));
            assert_eq!(with.len(), before.len(), "turn {turn}");
            with.iter().zip(&before).for_each(|(with, before)| assert_eq!(plain(with), plain(before), "turn {turn}"));
            sittings += with.iter().filter(|step| matches!(step, Step::Sit(..))).count();
        }
        assert!(sittings > 100, "{sittings} sittings");
    }

    #[test]
    fn a_session_hands_on_its_desk() {
        for turn in 0..100 {
            let mut desk = None;
            for step in any_session(turn) {
                let (before, after) = match &step {
                    Step::Place(placing, placed) => (placing.desk, placed.desk),
                    Step::Read(reading, _) => (reading.desk, reading.desk),
                    Step::Sit(sitting, foretold) => {
                        let placed =
                            foretold
                                .replies
                                .iter()
                                .find_map(|reply| if let Some(Reply::Placed(to)) = reply { Some(to.desk) } else { None });
                        (sitting.desk, placed.unwrap_or(sitting.desk))
                    }
                };
                assert_eq!(*desk.get_or_insert(before), before, "turn {turn}");
                desk = Some(after);
            }
        }
    }
}
