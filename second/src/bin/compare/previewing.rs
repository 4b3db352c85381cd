//! Holds sittings of the second program against what is known and either program's against request (viii)'s words, and the face against the second
//! program.

use crate::desks::{desk_words, outcome_words, ticket_words, told_words};
use crate::judging::judged_words;
use crate::previews;
use crate::tally::Tally;
use crate::words::{known_by, other_bytes, reason_words};
use second::desk::{Desk, Outcome, Ticket, NO_ROOM, SPENT};
use second::face::Face;
use second::preview::{due, Judged, Message};
use second::sitting::{sit, Act, Foretold, Reply, Sat, Sitting};

/// What a feed is kept as that was previewed and is not its sitting's own.
pub const BESIDE: [&str; 8] = ["preview-1", "preview-2", "preview-3", "preview-4", "preview-5", "preview-6", "preview-7", "preview-8"];

/// Facts about a sitting that differs.
pub fn compare_sitting(
    sitting: &Sitting,
    known: &Foretold,
    generated: bool,
    face: Option<&mut Face>,
    tally: &mut Tally,
) -> Result<Vec<String>, String> {
    let sat = sit(sitting);
    tally.answers += sat.replies.len();
    if generated {
        count(sitting, known, &sat, tally);
    }
    let (by, table) = (known_by(generated), known.table.as_ref().unwrap_or(&sitting.table));
    let mut facts = other_replies(sitting, by, &known.replies, "the second program", &sat.replies);
    facts.extend(other_bytes("table", by, table, "the second program", &sat.table));
    facts.extend(own_faults("the second program", sitting, &sat));
    if let Some(face) = face {
        let told = face.next_sat(sitting)?;
        let ours: Vec<Option<Reply>> = sat.replies.iter().copied().map(Some).collect();
        facts.extend(other_replies(sitting, "the second program", &ours, "the product", &told.replies));
        facts.extend(other_bytes("table", "the second program", &sat.table, "the product", &told.table));
        facts.extend(own_faults("the product", sitting, &told));
    }
    if !facts.is_empty() {
        facts.insert(0, format!("a sitting of {} acts on a desk with {}", sitting.acts.len(), desk_words(sitting.desk)));
    }
    Ok(facts)
}

fn count(sitting: &Sitting, known: &Foretold, sat: &Sat, tally: &mut Tally) {
    for reply in &sat.replies {
        match reply {
            Reply::Row([reason, ..]) => tally.tickets.add(*reason),
            Reply::Placed(outcome) => tally.placings.add(outcome.reason),
            // Previews have a line of their own.
            Reply::Judged(_) => {}
        }
    }
    previews::things(sitting, known, sat).into_iter().for_each(|things| tally.previews.add(things));
}

/// Facts about acts that are answered otherwise.
fn other_replies(sitting: &Sitting, one: &str, left: &[Option<Reply>], other: &str, right: &[Reply]) -> Vec<String> {
    let mut facts = Vec::new();
    for (at, (left, right)) in left.iter().zip(right).enumerate() {
        if let Some(left) = left.filter(|left| left != right) {
            facts.push(format!("act {}, {}", at + 1, act_words(sitting, &sitting.acts[at])));
            facts.push(format!("{one}: {}", reply_words(&left)));
            facts.push(format!("{other}: {}", reply_words(right)));
        }
    }
    facts
}

/// Facts about a program that goes against its own previews. They need no judge: request (viii) is enough.
fn own_faults(who: &str, sitting: &Sitting, sat: &Sat) -> Vec<String> {
    let mut facts = Vec::new();
    let mut desk = sitting.desk;
    for (at, (act, reply)) in sitting.acts.iter().zip(&sat.replies).enumerate() {
        let past = Past { sitting, acts: &sitting.acts[..at], replies: &sat.replies[..at] };
        match (act, reply) {
            (Act::Preview(message), Reply::Judged(said)) => facts.extend(of_placings_alone(who, sitting, message, *said)),
            (Act::Ticket(ticket), Reply::Row(told)) => facts.extend(past.other_heard(who, *ticket, told)),
            (Act::Place(number), Reply::Placed(outcome)) => {
                facts.extend(past.other_placed(who, desk, *number, *outcome));
                desk = outcome.desk;
            }
            _ => facts.push(format!("{who}: {} is answered as something else", act_words(sitting, act))),
        }
    }
    facts
}

/// A preview that gives a reason which judging has not.
fn of_placings_alone(who: &str, sitting: &Sitting, message: &Message, said: Judged) -> Option<String> {
    let is_so = [NO_ROOM, SPENT].contains(&said.reason);
    is_so.then(|| format!("{who}: {} says {}, which is for placings alone", preview_words(sitting, message), reason_words(said.reason)))
}

/// What was done in a sitting before an act.
struct Past<'s> {
    sitting: &'s Sitting,
    acts: &'s [Act],
    replies: &'s [Reply],
}

impl Past<'_> {
    /// A placing that does not come to what the previews of its message said.
    fn other_placed(&self, who: &str, desk: Desk, number: u64, outcome: Outcome) -> Vec<String> {
        let own = Message { feed: self.sitting.feed.clone(), number };
        let mut facts = Vec::new();
        for (act, reply) in self.acts.iter().zip(self.replies) {
            let (Act::Preview(message), Reply::Judged(said)) = (act, reply) else { continue };
            let due = due(*said, desk, self.sitting.table.len());
            if message.is(&own) && outcome != due {
                facts.push(format!("{who}, {}: {}", preview_words(self.sitting, message), judged_words(said)));
                facts.push(format!("due by that to its placing: {}", outcome_words(due)));
                facts.push(format!("{who}, the placing: {}", outcome_words(outcome)));
            }
        }
        facts
    }

    /// A ticket that heard something else before a preview, on the same desk and table.
    fn other_heard(&self, who: &str, ticket: Ticket, told: &[u32; 6]) -> Vec<String> {
        let Some((before, reply)) = self.heard_before_preview(ticket) else { return Vec::new() };
        if before == told {
            return Vec::new();
        }
        vec![
            format!("{who}, {} before {}: {}", ticket_words(ticket), act_words(self.sitting, reply), told_words(before)),
            format!("{who}, after it: {}", told_words(told)),
        ]
    }

    /// What the same ticket heard before the last preview, and that preview; nothing, if a placing came since.
    fn heard_before_preview(&self, ticket: Ticket) -> Option<(&[u32; 6], &Act)> {
        let since = self.acts.iter().rposition(|act| matches!(act, Act::Place(_))).map_or(0, |at| at + 1);
        let last = self.acts.iter().rposition(|act| matches!(act, Act::Preview(_)))?;
        let earlier = self.acts.iter().zip(self.replies).take(last).skip(since);
        let mut heard = earlier.filter_map(|turn| match turn {
            (Act::Ticket(same), Reply::Row(told)) if *same == ticket => Some(told),
            _ => None,
        });
        Some((heard.next_back()?, &self.acts[last]))
    }
}

fn preview_words(sitting: &Sitting, message: &Message) -> String {
    let beside = sitting.beside();
    let at = beside.iter().position(|feed| feed.is(&message.feed));
    let feed = at.map_or("its own feed", |at| BESIDE.get(at).copied().unwrap_or("a feed that is not kept"));
    format!("the preview of message {} of {feed}", message.number)
}

fn act_words(sitting: &Sitting, act: &Act) -> String {
    match act {
        Act::Ticket(ticket) => ticket_words(*ticket),
        Act::Preview(message) => preview_words(sitting, message),
        Act::Place(number) => format!("the placing of message {number}"),
    }
}

fn reply_words(reply: &Reply) -> String {
    match reply {
        Reply::Row(told) => told_words(told),
        Reply::Judged(judged) => judged_words(judged),
        Reply::Placed(outcome) => outcome_words(*outcome),
    }
}

#[cfg(test)]
mod tests {
    use super::*;
    use second::bytes::Bytes;
    use second::desk::FRESH;

    const OEM: &[u8] = b"CCSDS_OEM_VERS=1.0\nCREATION_DATE=2000-001T00:00:00\nORIGINATOR=A\nMETA_START\nOBJECT_NAME=B\nOBJECT_ID=C\n\
        CENTER_NAME=D\nREF_FRAME=E\nTIME_SYSTEM=UTC\nSTART_TIME=2000-001T00:00:00\nSTOP_TIME=2000-001T00:00:00\nMETA_STOP\n\
        2000-01-01T00:00:00 1 2 3 4 5 6\nCCSDS_OPM_VERS=1.0\n";

    /// On a fresh desk: previews and placings of both messages of this feed, with a ticket heard before and after a preview of another feed.
    fn sitting() -> Sitting {
        let feed: Bytes = OEM.into();
        let own = |number| Act::Preview(Message { feed: feed.clone(), number });
        let beside = Act::Preview(Message { feed: b"x"[..].into(), number: 1 });
        let ticket = Act::Ticket(Ticket { load: 1, row: 2 });
        let acts = vec![own(1), Act::Place(1), ticket.clone(), own(2), beside, ticket, Act::Place(2)];
        Sitting { desk: FRESH, feed, table: vec![7; 381], acts }
    }

    fn known(sitting: &Sitting) -> Foretold {
        let Sat { replies, table } = sit(sitting);
        Foretold { of: None, replies: replies.into_iter().map(Some).collect(), table: Some(table) }
    }

    /// The numbers of a reply, to be spoilt one by one.
    fn numbers(reply: &Reply) -> Vec<u32> {
        match reply {
            Reply::Row(told) => told.to_vec(),
            Reply::Judged(Judged { reason, line, rows }) => vec![*reason, *line, *rows],
            Reply::Placed(Outcome { desk, reason, line }) => vec![desk.load, desk.count, *reason, *line],
        }
    }

    /// What is told of a sitting whose answers were spoilt, by what the program itself has said before.
    fn own(spoil: impl Fn(&mut [Reply])) -> Vec<String> {
        let sitting = sitting();
        let mut sat = sit(&sitting);
        spoil(&mut sat.replies);
        own_faults("one", &sitting, &sat)
    }

    #[test]
    fn a_right_sitting_has_nothing_to_tell() {
        assert_eq!(own(|_| {}), Vec::<String>::new());
        let facts = compare_sitting(&sitting(), &known(&sitting()), true, None, &mut Tally::new());
        assert_eq!(facts, Ok(Vec::new()));
    }

    #[test]
    fn a_preview_that_says_what_is_for_placings_alone_is_told() {
        for (reason, name) in [(NO_ROOM, "NO_ROOM"), (SPENT, "SPENT")] {
            let facts = own(|replies| replies[4] = Reply::Judged(Judged { reason, line: 0, rows: 0 }));
            assert_eq!(facts, [format!("one: the preview of message 1 of preview-1 says {name}, which is for placings alone")]);
        }
    }

    #[test]
    fn a_placing_that_goes_against_its_preview_is_told() {
        let one_more = own(|replies| replies[0] = Reply::Judged(Judged { reason: 0, line: 0, rows: 20 }));
        assert_eq!(
            one_more,
            [
                "one, the preview of message 1 of its own feed: accepted with 20 rows",
                "due by that to its placing: refused NO_ROOM at line 0, then load 1 and count 0",
                "one, the placing: accepted, then load 1 and count 19",
            ]
        );
        let first = own(|replies| replies[6] = Reply::Placed(Outcome { desk: Desk { load: 2, count: 19 }, reason: 0, line: 0 }));
        assert_eq!(
            first,
            [
                "one, the preview of message 2 of its own feed: refused SHORT at line 2",
                "due by that to its placing: refused SHORT at line 2, then load 2 and count 0",
                "one, the placing: accepted, then load 2 and count 19",
            ]
        );
        for (desk, reason, line) in [((2, 0), 11, 3), ((2, 0), 10, 2), ((2, 1), 11, 2), ((1, 0), 11, 2), ((1, 19), SPENT, 0)] {
            let outcome = Outcome { desk: Desk { load: desk.0, count: desk.1 }, reason, line };
            assert_eq!(own(|replies| replies[6] = Reply::Placed(outcome)).len(), 3);
        }
    }

    #[test]
    fn a_ticket_that_a_preview_ends_is_told() {
        let facts = own(|replies| replies[5] = Reply::Row([14, 0, 0, 0, 0, 0]));
        assert_eq!(
            facts,
            [
                "one, ticket of load 1 and row 2 before the preview of message 1 of preview-1: code 3, group 0, line 3, start 62, length 1",
                "one, after it: refused GONE",
            ]
        );
        // Without a preview between, or with a placing, it is not the previews' doing.
        let ended = |acts: Vec<Act>| {
            let sitting = Sitting { acts, ..sitting() };
            let mut sat = sit(&sitting);
            let last = sat.replies.len() - 1;
            sat.replies[last] = Reply::Row([14, 0, 0, 0, 0, 0]);
            own_faults("one", &sitting, &sat).len()
        };
        let [preview, place, ticket] = [0, 1, 2].map(|at| sitting().acts[at].clone());
        assert_eq!(ended(vec![place.clone(), ticket.clone(), preview.clone(), ticket.clone()]), 2);
        assert_eq!(ended(vec![place.clone(), preview.clone(), ticket.clone(), ticket.clone()]), 0);
        assert_eq!(ended(vec![place.clone(), ticket.clone(), preview, place, ticket]), 0);
    }

    #[test]
    fn a_face_that_says_something_else_is_told_for_each_number() {
        let sat = sit(&sitting());
        let right: Vec<u32> = sat.replies.iter().flat_map(numbers).collect();
        let bytes =
            |numbers: &[u32], table: &[u8]| [&numbers.iter().flat_map(|number| number.to_le_bytes()).collect::<Vec<u8>>(), table].concat();
        // This face says what it hears.
        let mut face = Face::start(&["cat".to_string()]).expect("started");
        face.send(bytes(&right, &sat.table));
        for at in 0..right.len() {
            let mut other = right.clone();
            other[at] += 1;
            face.send(bytes(&other, &sat.table));
        }
        let mut table = sat.table.clone();
        table[380] ^= 1;
        face.send(bytes(&right, &table));
        let mut tally = Tally::new();
        let mut hear = || compare_sitting(&sitting(), &known(&sitting()), true, Some(&mut face), &mut tally).expect("answered");
        assert_eq!(hear(), Vec::<String>::new());
        for at in 0..right.len() {
            let facts = hear();
            assert!(facts.len() >= 4, "number {at}: {facts:?}");
            assert_eq!(facts[0], "a sitting of 7 acts on a desk with load 0 and count 0");
        }
        let facts = hear();
        assert_eq!(
            facts[1..],
            ["bytes of the table that differ: 1, the first at 380", "the second program: byte 7", "the product: byte 6"]
        );
        assert_eq!(tally.answers, 7 * (right.len() + 2));
    }

    #[test]
    fn what_is_known_otherwise_is_told() {
        let sitting = sitting();
        let facts = |known: &Foretold| compare_sitting(&sitting, known, false, None, &mut Tally::new()).expect("no face is asked");
        let mut other = known(&sitting);
        other.replies[3] = Some(Reply::Judged(Judged { reason: 12, line: 0, rows: 0 }));
        assert_eq!(
            facts(&other)[1..],
            [
                "act 4, the preview of message 2 of its own feed", "written by hand: reason 12, line 0 and rows 0",
                "the second program: refused SHORT at line 2",
            ]
        );
        let as_lent = Foretold { table: None, ..known(&sitting) };
        assert_eq!(facts(&as_lent).len(), 4);
    }
}
