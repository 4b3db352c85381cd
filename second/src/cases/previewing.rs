//! Cases about previews: messages judged before, between and after the placings of one desk, and what its tickets and placings are answered then.

use super::day;
use super::desks::{desk, filled, full, lent, over, too_long, wrong, FULL, TOP};
use super::{oem, opm, row, wide_oem, wide_opm, FULL_ROWS};
use crate::bytes::Bytes;
use crate::desk::{as_told, Desk, Outcome, Ticket, ASTRAY, FINE, FRESH, GONE, NO_ROOM, NO_ROW, SPENT};
use crate::judge::Reason::{FeedLong, NoMessage, Short};
use crate::preview::{Judged, Message};
use crate::sitting::{Act, Foretold, Reply, Sitting};

/// One sitting, and what each act must be answered.
#[derive(Clone, Debug)]
pub struct SitCase {
    pub name: String,
    pub sitting: Sitting,
    pub want: Foretold,
}

/// All fixed cases about previews.
pub fn previewings() -> Vec<SitCase> {
    let (mut book, looks) = (PreviewBook { cases: Vec::new() }, looks());
    one_desk(&mut book, &looks);
    tickets_kept(&mut book, &looks);
    tickets_gone(&mut book, &looks);
    at_the_top(&mut book, &looks);
    room(&mut book);
    the_same_message(&mut book, &looks);
    another_message(&mut book, &looks);
    strange_desks(&mut book, &looks);
    many(&mut book, &looks);
    book.cases
}

/// The cases as they are gathered.
struct PreviewBook {
    cases: Vec<SitCase>,
}

impl PreviewBook {
    /// A sitting that leaves the table as it was lent.
    fn keeps(&mut self, name: &str, host: Host) {
        self.add(name, host, None);
    }

    /// A sitting that leaves this table.
    fn fills(&mut self, name: &str, host: Host, table: Vec<u8>) {
        self.add(name, host, Some(table));
    }

    fn add(&mut self, name: &str, Host { sitting, replies }: Host, table: Option<Vec<u8>>) {
        let want = Foretold { of: None, replies: replies.into_iter().map(Some).collect(), table };
        self.cases.push(SitCase { name: format!("previews: {name}"), sitting, want });
    }
}

/// Bytes for 60 rows and more, so that a preview that fills the table shows.
const ROOM: usize = 1_283;

/// A message, and what a preview must say of it.
#[derive(Clone)]
struct Look {
    name: String,
    message: Message,
    said: Judged,
}

fn look(name: &str, feed: &Bytes, number: u64, said: Judged) -> Look {
    Look { name: name.to_string(), message: Message { feed: feed.clone(), number }, said }
}

/// Messages that are right, refused, missing, or in a feed that is too long; none is in the feed in full of the sitting.
fn looks() -> Vec<Look> {
    let missing = Judged::refused(NoMessage, 0);
    let (opm, long): (Bytes, Bytes) = (opm().into(), too_long(full()));
    let mut looks = vec![
        look("the feed in full again", &full().into(), 1, Judged::accepted(19)),
        look("an OPM", &opm, 1, Judged::accepted(20)),
        look("a wide OEM", &wide_oem().into(), 1, Judged::accepted(60)),
        look("a wide OPM", &wide_opm().into(), 1, Judged::accepted(41)),
        look("message 0", &opm, 0, missing),
        look("message 2 of one", &opm, 2, missing),
        look("the greatest message number", &opm, u64::MAX, missing),
        look("an empty feed", &Vec::new().into(), 1, missing),
        look("a feed too long", &long, 1, Judged::refused(FeedLong, 0)),
        look("message 0 of a feed too long", &long, 0, Judged::refused(FeedLong, 0)),
    ];
    let refused = wrong()
        .map(|(reason, line, feed)| look(&format!("{} at {line}", reason.name()), &feed.into(), 1, Judged::refused(reason, line as usize)));
    looks.extend(refused);
    looks
}

/// A host as it goes on, with what it must be answered.
struct Host {
    sitting: Sitting,
    replies: Vec<Reply>,
}

impl Host {
    fn new(desk: Desk, feed: impl Into<Bytes>, table: Vec<u8>) -> Host {
        Host { sitting: Sitting { desk, feed: feed.into(), table, acts: Vec::new() }, replies: Vec::new() }
    }

    /// The feed in full and its rows, on the desk that has them; the table has room for any message that is looked at.
    fn of_full() -> Host {
        Host::new(FULL, full(), filled(ROOM))
    }

    fn act(mut self, act: Act, reply: Reply) -> Host {
        self.sitting.acts.push(act);
        self.replies.push(reply);
        self
    }

    fn hears(self, (load, number): (u32, u32), want: Result<[u32; 5], u32>) -> Host {
        self.act(Act::Ticket(Ticket { load, row: number }), Reply::Row(as_told(&want.map(row))))
    }

    /// Every row of the feed in full, to tickets of this load, and no more.
    fn hears_all(self, load: u32) -> Host {
        let all = (0..).zip(FULL_ROWS).fold(self, |host, (number, numbers)| host.hears((load, number), Ok(numbers)));
        all.hears((load, 19), Err(NO_ROW))
    }

    fn looks(self, look: &Look) -> Host {
        self.act(Act::Preview(look.message.clone()), Reply::Judged(look.said))
    }

    /// A look at a message of the sitting's own feed.
    fn looks_own(self, number: u64, said: Judged) -> Host {
        let feed = self.sitting.feed.clone();
        self.act(Act::Preview(Message { feed, number }), Reply::Judged(said))
    }

    fn looks_at_all(self, looks: &[Look]) -> Host {
        looks.iter().fold(self, Host::looks)
    }

    fn places(self, number: u64, (desk, reason, line): (Desk, u32, u32)) -> Host {
        self.act(Act::Place(number), Reply::Placed(Outcome { desk, reason, line }))
    }
}

/// Document 01's feed in full on a fresh desk: previews before, between and after its placings.
fn one_desk(book: &mut PreviewBook, looks: &[Look]) {
    let stands = Judged::accepted(19);
    let fresh = || Host::new(FRESH, full(), lent(ROOM));
    let before = fresh().looks_own(1, stands).hears((0, 0), Err(NO_ROW)).hears((1, 0), Err(GONE));
    let first = before.looks_at_all(looks).hears((0, 0), Err(NO_ROW)).hears((1, 0), Err(GONE)).places(1, (desk(1, 19), FINE, 0));
    let kept = first.looks_at_all(looks).looks_own(1, stands).looks_own(2, Judged::refused(NoMessage, 0)).hears_all(1);
    let second = kept.places(1, (desk(2, 19), FINE, 0)).hears((1, 9), Err(GONE)).hears((2, 9), Ok(FULL_ROWS[9]));
    let later = second.looks_at_all(looks).hears((1, 9), Err(GONE)).hears_all(2);
    let refused = later.looks_own(2, Judged::refused(NoMessage, 0)).places(2, (desk(3, 0), 2, 0)).hears((2, 9), Err(GONE));
    let empty = refused.looks_own(1, stands).hears((2, 9), Err(GONE)).hears((3, 0), Err(NO_ROW)).hears((4, 0), Err(GONE));
    let last = empty.places(1, (desk(4, 19), FINE, 0)).looks_at_all(looks).hears_all(4).hears((3, 0), Err(GONE));
    book.fills("the feed in full before, between and after its placings", last, filled(ROOM));
    book.keeps(
        "the feed in full and all others, nothing placed",
        fresh().looks_own(1, stands).looks_at_all(looks).hears((0, 0), Err(NO_ROW)),
    );
}

/// A ticket that was kept hears its row after every preview.
fn tickets_kept(book: &mut PreviewBook, looks: &[Look]) {
    let any = (1, 4);
    for look in looks {
        let host = Host::of_full().hears(any, Ok(FULL_ROWS[4])).looks(look).hears(any, Ok(FULL_ROWS[4]));
        book.keeps(&format!("a ticket kept past {}", look.name), host.looks(look).looks(look).hears_all(1));
    }
    let own = Host::of_full().looks_own(1, Judged::accepted(19)).hears_all(1);
    book.keeps("a ticket kept past its own message", own);
    let missing = [0, 2, 65_537, 1 << 32, u64::MAX].into_iter();
    let host =
        missing.fold(Host::of_full(), |host, number| host.looks_own(number, Judged::refused(NoMessage, 0)).hears(any, Ok(FULL_ROWS[4])));
    book.keeps("a ticket kept past messages that its feed has not", host);
    let many: Bytes = day::seconds(10_000).into();
    let great = Host::of_full().looks(&look("a great feed", &many, 1, Judged::accepted(70_012))).hears_all(1);
    book.keeps("a ticket kept past 70,012 rows", great);
    book.keeps("a ticket kept past all previews", Host::of_full().hears_all(1).looks_at_all(looks).hears_all(1));
}

/// What a ticket could not hear before a preview, it cannot hear after it.
fn tickets_gone(book: &mut PreviewBook, looks: &[Look]) {
    let deaf = |host: Host| {
        let gone = [(0, 0), (2, 0), (TOP, 18), (19, 1)].into_iter().fold(host, |host, ticket| host.hears(ticket, Err(GONE)));
        [19, 20, TOP].into_iter().fold(gone, |host, number| host.hears((1, number), Err(NO_ROW)))
    };
    for look in looks {
        let host = deaf(deaf(Host::of_full()).looks(look));
        book.keeps(
            &format!("tickets gone before and after {}", look.name),
            host.looks_own(1, Judged::accepted(19)).hears((2, 0), Err(GONE)),
        );
    }
    // The last row needs the table up to 380 and the feed up to 243.
    let short = |feed: Bytes, table: Vec<u8>| {
        Host::new(FULL, feed, table).hears((1, 18), Err(ASTRAY)).looks_at_all(looks).hears((1, 18), Err(ASTRAY))
    };
    book.keeps("a ticket astray by the table before and after", short(full().into(), filled(380)[..379].to_vec()));
    book.keeps("a ticket astray by the feed before and after", short(Bytes::from(full()).cut(242), filled(380)));
}

/// At the top a message is judged as ever, a placing is spent, and the tickets stay.
fn at_the_top(book: &mut PreviewBook, looks: &[Look]) {
    for look in looks {
        let host = Host::new(desk(TOP, 19), look.message.feed.clone(), filled(ROOM)).looks(look);
        let spent = host.places(look.message.number, (desk(TOP, 19), SPENT, 0)).looks(look);
        book.keeps(&format!("at the top: {}", look.name), spent);
    }
    let spent = (desk(TOP, 19), SPENT, 0);
    let host = Host::new(desk(TOP, 19), full(), filled(ROOM)).looks_own(1, Judged::accepted(19)).hears_all(TOP).places(1, spent);
    let later = host.looks_at_all(looks).hears_all(TOP).looks_own(2, Judged::refused(NoMessage, 0)).places(2, spent);
    book.keeps("at the top: the tickets stay", later.looks_own(1, Judged::accepted(19)).hears_all(TOP));
    let step = Host::new(desk(TOP - 1, 0), full(), lent(380)).looks_own(1, Judged::accepted(19)).places(1, (desk(TOP, 19), FINE, 0));
    let over = step.looks_at_all(looks).hears_all(TOP).looks_own(1, Judged::accepted(19)).places(1, spent).hears_all(TOP);
    book.fills("at the top: the last placing and one more", over, filled(380));
}

/// A table that is too short does not matter to a preview: 19 rows, and the placing says NO_ROOM.
fn room(book: &mut PreviewBook) {
    for size in [0, 1, 19, 20, 190, 376, 377, 378, 379] {
        let host = Host::new(FULL, full(), lent(size)).looks_own(1, Judged::accepted(19)).places(1, (desk(2, 0), NO_ROOM, 0));
        let again = host.looks_own(1, Judged::accepted(19)).hears((1, 0), Err(GONE)).hears((2, 0), Err(NO_ROW));
        book.keeps(&format!("no room in {size} bytes"), again.places(1, (desk(3, 0), NO_ROOM, 0)));
    }
    for size in [380, 381, 383, 400] {
        let host = Host::new(FULL, full(), lent(size)).looks_own(1, Judged::accepted(19)).places(1, (desk(2, 19), FINE, 0));
        book.fills(&format!("room in {size} bytes"), host.looks_own(1, Judged::accepted(19)).hears_all(2), filled(size));
    }
    let many = Host::new(FULL, day::seconds(10_000), lent(1_400_239)).looks_own(1, Judged::accepted(70_012));
    book.keeps("no room for 70,012 rows", many.places(1, (desk(2, 0), NO_ROOM, 0)).looks_own(1, Judged::accepted(70_012)));
    // A right message that has room does not make room for the next.
    let two: Bytes = [full(), wide_oem().into()].concat().into();
    let host = Host::new(FRESH, two, lent(380)).looks_own(2, Judged::accepted(60)).looks_own(1, Judged::accepted(19));
    let host = host.places(2, (desk(1, 0), NO_ROOM, 0)).looks_own(2, Judged::accepted(60)).places(1, (desk(2, 19), FINE, 0));
    book.fills("no room for the second of two", host.looks_own(2, Judged::accepted(60)).hears_all(2), filled(380));
}

/// A placing right after a preview of its message is answered as the preview was.
fn the_same_message(book: &mut PreviewBook, looks: &[Look]) {
    for look in looks {
        let Look { name, message, said } = look.clone();
        if said.reason == FINE {
            continue;
        }
        let host = Host::new(FULL, message.feed, filled(800)).looks(look).places(message.number, (desk(2, 0), said.reason, said.line));
        let again = host.looks(look).hears((1, 0), Err(GONE)).hears((2, 0), Err(NO_ROW));
        book.keeps(&format!("{name}, placed"), again.looks(look).places(message.number, (desk(3, 0), said.reason, said.line)));
    }
}

/// A placing right after a preview of another message is answered for its own.
fn another_message(book: &mut PreviewBook, looks: &[Look]) {
    let moved = FULL_ROWS.map(|[code, group, line, start, length]| [code, group, line, start + 212, length]);
    let (stands, falls) = (Judged::accepted(19), Judged::refused(Short, 13));
    let pair: Bytes = [oem().drop(13).into(), full()].concat().into();
    let start = || Host::new(FRESH, pair.clone(), lent(381));
    let first = start().looks_own(2, stands).places(1, (desk(1, 0), 11, 13)).hears((1, 0), Err(NO_ROW));
    let then = first.looks_own(1, falls).places(2, (desk(2, 19), FINE, 0)).looks_own(1, falls).hears((2, 18), Ok(moved[18]));
    book.fills("a wrong message after a right one, and back", then, over(&moved, 381));
    let third = start().looks_own(2, stands).places(3, (desk(1, 0), 2, 0)).looks_own(3, Judged::refused(NoMessage, 0));
    book.fills("a message that is not there after a right one, and back", third.places(2, (desk(2, 19), FINE, 0)), over(&moved, 381));
    // The same number in another feed is another message.
    for look in looks {
        let host = Host::new(FRESH, full(), lent(380)).looks(look).places(1, (desk(1, 19), FINE, 0)).looks(look).hears_all(1);
        book.fills(&format!("the feed in full after {}", look.name), host, filled(380));
        let Message { feed, number } = look.message.clone();
        if look.said.reason != FINE {
            let host = Host::new(FULL, feed, filled(380)).looks(&looks[0]).places(number, (desk(2, 0), look.said.reason, look.said.line));
            book.keeps(&format!("{} after the feed in full", look.name), host);
        }
    }
}

/// Desks that no placing gives, and nothing lent at all.
fn strange_desks(book: &mut PreviewBook, looks: &[Look]) {
    let nothing = |at: Desk| Host::new(at, Vec::new(), Vec::new()).looks_own(1, Judged::refused(NoMessage, 0)).looks_at_all(looks);
    for (load, count) in [(0, 0), (0, TOP), (7, 19), (65_536, 65_536), (TOP, 0), (TOP, TOP)] {
        let host = nothing(desk(load, count));
        let deaf = if count == 0 { NO_ROW } else { ASTRAY };
        book.keeps(&format!("nothing lent on a desk with load {load} and count {count}"), host.hears((load, 0), Err(deaf)));
    }
    let placed = nothing(desk(6, 3)).places(1, (desk(7, 0), 2, 0)).looks_at_all(looks).hears((6, 0), Err(GONE)).hears((7, 0), Err(NO_ROW));
    book.keeps("nothing lent, and a message of it placed", placed);
}

/// However many previews there are, they are nothing to the desk.
fn many(book: &mut PreviewBook, looks: &[Look]) {
    let all = (0..40)
        .fold(Host::of_full(), |host, _| host.looks_at_all(looks).looks_own(1, Judged::accepted(19)).hears((1, 18), Ok(FULL_ROWS[18])));
    book.keeps("920 of them", all.hears_all(1));
}
