//! What is asked: fixed cases, generated feeds, explanations, sessions, writings, texts, tables and values, each with what is known of the answer
//! beforehand.

use crate::explaining::Explaining;
use crate::previewing::BESIDE;
use second::aims::{aimed, Aimed};
use second::bytes::Bytes;
use second::cases::{Case, DeskCases, ExplainCase, MoveCase, SayCase, SendCase, SitCase, VoiceCase, Want};
use second::desk::{Heard, Placed, Placing, Reading};
use second::dice::Dice;
use second::face::{Face, Requests};
use second::harm::{fill, harm_bytes, harm_draft};
use second::judge::{Explained, Feed, Reason, Row, FEED_LIMIT};
use second::make::{draft, lengthen, sent, write, Draft, Written};
use second::movings::{any_tables, Round, Tables, Told};
use second::sayings::{any_spoken, Spoken};
use second::send::Sent;
use second::session::{session, Step};
use second::sitting::{Foretold, Sitting};
use second::sittings::Lent;
use second::voicings::{any_prompt, Prompt};
use second::writings::{writings, Again, Letter, Writing};
use std::rc::Rc;

/// So many in a hundred generated feeds begin a session on a desk.
const SESSIONS: usize = 50;

/// The turns of texts begin after those of any feeds, then those of tables, explanations, previews and values, so that all have dice of their own.
const TEXT_TURNS: u64 = 1 << 40;
const TABLE_TURNS: u64 = 1 << 41;
const EXPLAIN_TURNS: u64 = 1 << 42;
const PREVIEW_TURNS: u64 = 1 << 43;
const VALUE_TURNS: u64 = 1 << 44;

/// So many in a hundred messages are explained, the first of a feed always.
const EXPLAINED: usize = 33;

/// So many in a hundred feeds whose messages are explained have a made line of every code tried.
const BY_CODES: usize = 25;

/// Which reasons are aimed at, one each turn: those that show more come more often.
const AIMS: [Reason; 15] = [
    Reason::Long,
    Reason::Order,
    Reason::Short,
    Reason::Byte,
    Reason::Value,
    Reason::Form,
    Reason::Order,
    Reason::Short,
    Reason::Keyword,
    Reason::Value,
    Reason::Unit,
    Reason::Order,
    Reason::Short,
    Reason::TimeOrder,
    Reason::Value,
];

/// One in so many feeds is long: it has more lines or rows than 16 bits count.
const LONG_EVERY: usize = 1_000;
const LONG_AT: usize = 900;

/// One in so many feeds is as long as a feed may be, or one byte shorter. It is judged and no more, since that takes long.
const GREATEST_EVERY: usize = 4_000;
const GREATEST_AT: usize = 2_500;

/// So many in a thousand feeds are longer than a feed may be, and so many more have about 65,535 bytes, which was the limit before request (vi).
const TOO_LONG: usize = 10;
const OLD_LIMIT: usize = 65_535;
const ABOUT_OLD_LIMIT: usize = 4;

/// Something to ask, and where it comes from.
pub struct Item {
    pub name: String,
    pub generated: bool,
    pub ask: Ask,
}

/// A call on the face, or a few, with what must be answered if that is known without judge, desk, writer, sayer or speaker.
pub enum Ask {
    Judge(Judging),
    Explain(Explaining),
    Place(Placing, Placed),
    Read(Reading, Vec<Option<Heard>>),
    Sit(Sitting, Foretold),
    Write(Writing),
    Again(Again),
    Say(Spoken),
    Move(Told),
    Round(Round),
    Voice(Prompt),
}

/// Messages of a feed to be judged.
pub struct Judging {
    pub feed: Bytes,
    pub messages: Vec<u64>,
    pub known: Known,
}

/// What must be answered, if that is known without any judge.
pub enum Known {
    Nothing,
    /// A fixed case.
    Case {
        headings: Result<usize, Reason>,
        want: Want,
    },
    /// A sound feed: the rows of each message, from the first.
    Rows(Vec<Vec<Row>>),
}

impl Item {
    /// What is asked about, and what goes with it, each by its name.
    pub fn parts(&self) -> Vec<(&'static str, &[u8])> {
        match &self.ask {
            Ask::Judge(judging) => vec![("feed", &judging.feed)],
            Ask::Explain(explaining) => vec![("feed", &explaining.feed)],
            Ask::Place(placing, _) => vec![("feed", &placing.feed), ("table", &placing.table)],
            Ask::Read(reading, _) => vec![("feed", &reading.feed), ("table", &reading.table)],
            Ask::Sit(sitting, _) => {
                let beside = BESIDE.into_iter().zip(sitting.beside().into_iter().map(|feed| &feed[..]));
                [("feed", &sitting.feed[..]), ("table", &sitting.table)].into_iter().chain(beside).collect()
            }
            Ask::Write(writing) => vec![("feed", &writing.sending.feed), ("buffer", &writing.sending.buffer)],
            Ask::Again(again) => vec![("feed", &again.first.feed), ("output", &again.then.feed)],
            Ask::Say(spoken) => vec![("text", &spoken.saying.text)],
            Ask::Move(told) => vec![("table", &told.moving.from), ("buffer", &told.moving.into)],
            Ask::Round(round) => {
                vec![("feed", &round.reading.feed), ("table", &round.widen.moving.from), ("buffer", &round.widen.moving.into)]
            }
            Ask::Voice(prompt) => vec![("value", &prompt.voicing.value), ("buffer", &prompt.voicing.buffer)],
        }
    }

    pub fn add_to(&self, requests: &mut Requests) {
        match &self.ask {
            Ask::Judge(judging) => requests.add_judge(&judging.feed, &judging.messages),
            Ask::Explain(explaining) => requests.add_explain(&explaining.feed, &explaining.messages),
            Ask::Place(placing, _) => requests.add_place(placing),
            Ask::Read(reading, _) => requests.add_read(reading),
            Ask::Sit(sitting, _) => requests.add_sit(sitting),
            Ask::Write(writing) => requests.add_write(&writing.sending),
            Ask::Again(again) => {
                requests.add_place(&again.first);
                requests.add_judge(&again.then.feed, &[]);
                requests.add_place(&again.then);
                requests.add_write(&again.sending);
            }
            Ask::Say(spoken) => requests.add_say(&spoken.saying),
            Ask::Move(told) => requests.add_move(&told.moving),
            Ask::Round(round) => {
                requests.add_move(&round.widen.moving);
                requests.add_move(&round.narrow.moving);
                requests.add_read(&round.reading);
            }
            Ask::Voice(prompt) => requests.add_voice(&prompt.voicing),
        }
    }

    /// Whether the face comes to the end of its answer.
    pub fn is_answered_by(&self, face: &mut Face) -> bool {
        match &self.ask {
            Ask::Judge(judging) => face.next_judged(judging.messages.len()).is_ok(),
            Ask::Explain(explaining) => face.next_explained(explaining.messages.len()).is_ok(),
            Ask::Place(placing, _) => face.next_placed(placing).is_ok(),
            Ask::Read(reading, _) => face.next_read(reading).is_ok(),
            Ask::Sit(sitting, _) => face.next_sat(sitting).is_ok(),
            Ask::Write(writing) => face.next_sent(&writing.sending).is_ok(),
            Ask::Again(again) => {
                face.next_placed(&again.first).is_ok()
                    && face.next_judged(0).is_ok()
                    && face.next_placed(&again.then).is_ok()
                    && face.next_sent(&again.sending).is_ok()
            }
            Ask::Say(_) => face.next_said().is_ok(),
            Ask::Move(told) => face.next_moved(&told.moving).is_ok(),
            Ask::Round(round) => {
                face.next_moved(&round.widen.moving).is_ok()
                    && face.next_moved(&round.narrow.moving).is_ok()
                    && face.next_read(&round.reading).is_ok()
            }
            Ask::Voice(prompt) => face.next_voiced(&prompt.voicing).is_ok(),
        }
    }
}

fn fixed(name: &str, ask: Ask) -> Item {
    Item { name: format!("fixed case: {name}"), generated: false, ask }
}

/// A case's message to be judged, explained and written and, if it goes out, placed and written again.
pub fn case_items(case: Case) -> Vec<Item> {
    let Case { name, feed, headings, message, want, only_judged } = case;
    let judging = Judging { feed: feed.clone(), messages: vec![message], known: Known::Case { headings, want: want.clone() } };
    let judged = fixed(&name, Ask::Judge(judging));
    if only_judged {
        return vec![judged];
    }
    let explaining = Explaining { feed: feed.clone(), messages: vec![message], known: vec![None], by_codes: false };
    let explained = fixed(&format!("{name}, explained"), Ask::Explain(explaining));
    let letter = Rc::new(Letter::new(&feed, &Feed::new(&feed), message));
    let buffer = vec![255; letter.outgoing.as_ref().map_or(50, |text| text.len() + 1)];
    let refused = match want {
        Want::Refused(reason, line) => Some(Sent { reason: reason.number(), line: line as u32, length: 0, buffer: buffer.clone() }),
        Want::Accepted { .. } => None,
    };
    let again = letter.again(|size| vec![255; size]).map(|again| fixed(&format!("{name}, placed again"), Ask::Again(again)));
    let written = fixed(&format!("{name}, written"), Ask::Write(letter.into_buffer(buffer, refused)));
    [judged, explained, written].into_iter().chain(again).collect()
}

pub fn explain_item(case: ExplainCase) -> Item {
    let ExplainCase { name, feed, message, want } = case;
    fixed(&name, Ask::Explain(Explaining { feed, messages: vec![message], known: vec![Some(want)], by_codes: true }))
}

pub fn send_item(case: SendCase) -> Item {
    let SendCase { name, sending, want } = case;
    let letter = Rc::new(Letter::new(&sending.feed, &Feed::new(&sending.feed), sending.message));
    fixed(&name, Ask::Write(letter.into_buffer(sending.buffer, Some(want))))
}

pub fn say_item(case: SayCase) -> Item {
    let SayCase { name, saying, want } = case;
    fixed(&name, Ask::Say(Spoken { saying, known: Some(want) }))
}

pub fn move_item(case: MoveCase) -> Item {
    let MoveCase { name, moving, want } = case;
    fixed(&name, Ask::Move(Told { moving, known: want }))
}

pub fn voice_item(case: VoiceCase) -> Item {
    let VoiceCase { name, voicing, want } = case;
    fixed(&name, Ask::Voice(Prompt { voicing, known: Some(want) }))
}

pub fn desk_items(cases: DeskCases) -> Vec<Item> {
    let placings = cases.placings.into_iter().map(|case| fixed(&case.name, Ask::Place(case.placing, case.want)));
    let reads = cases.reads.into_iter().map(|case| fixed(&case.name, Ask::Read(case.reading, case.want.into_iter().map(Some).collect())));
    placings.chain(reads).collect()
}

pub fn sit_item(case: SitCase) -> Item {
    fixed(&case.name, Ask::Sit(case.sitting, case.want))
}

/// What one turn of a seed brings: a feed, explanations of its messages, often a session that begins with it, writings of its messages, and a feed
/// with one message to be explained that is wrong by a reason aimed at.
pub fn generated_items(seed: u64, turn: usize) -> Vec<Item> {
    let mut dice = Dice::new(seed, turn as u64);
    let is_greatest = turn % GREATEST_EVERY == GREATEST_AT;
    let Made { feed, known, texts } = match turn % LONG_EVERY {
        _ if is_greatest => greatest_feed(&mut dice),
        LONG_AT => long_feed(&mut dice),
        _ => any_feed(&mut dice),
    };
    let messages = asked(&feed, &mut dice);
    let name = format!("generated feed {turn} of seed {seed}");
    let item = |more: String, ask| Item { name: format!("{name}{more}"), generated: true, ask };
    let mut luck = Dice::new(seed, EXPLAIN_TURNS + turn as u64);
    let explaining = some_explained(&feed, &messages, &known, &mut luck);
    let first = lent(&feed, &known);
    let judging = Ask::Judge(Judging { feed: feed.clone(), messages: messages.clone(), known });
    let mut items = vec![item(String::new(), judging)];
    if is_greatest {
        return items;
    }
    items.push(item(", explained".to_string(), Ask::Explain(explaining)));
    if dice.percent(SESSIONS) {
        let others = (0..dice.below(3)).map(|_| any_feed(&mut dice)).map(|Made { feed, known, .. }| lent(&feed, &known));
        let feeds: Vec<Lent> = [first].into_iter().chain(others).collect();
        let mut glances = Dice::new(seed, PREVIEW_TURNS + turn as u64);
        let asks = session(&feeds, &mut dice, &mut glances).into_iter().map(|step| match step {
            Step::Place(placing, placed) => Ask::Place(placing, placed),
            Step::Read(reading, known) => Ask::Read(reading, known),
            Step::Sit(sitting, known) => Ask::Sit(sitting, known),
        });
        items.extend((1..).zip(asks).map(|(at, ask)| item(format!(", call {at} on a desk"), ask)));
    }
    let (writings, agains) = writings(&feed, &messages, texts.as_deref(), &mut dice);
    items.extend((1..).zip(writings).map(|(at, writing)| item(format!(", writing {at}"), Ask::Write(writing))));
    items.extend((1..).zip(agains).map(|(at, again)| item(format!(", output {at} placed again"), Ask::Again(again))));
    let reason = AIMS[turn % AIMS.len()];
    items.push(item(format!(", another with {}, explained", reason.name()), Ask::Explain(aimed_at(reason, &mut luck))));
    items
}

/// A feed for a session; of a sound one it is known how many rows its messages have.
fn lent(feed: &Bytes, known: &Known) -> Lent {
    let rows = if let Known::Rows(rows) = known { Some(rows.iter().map(Vec::len).collect()) } else { None };
    Lent { feed: feed.clone(), rows }
}

/// The first of these messages of a feed and some of the others; of a sound feed it is known what must be said.
fn some_explained(feed: &Bytes, messages: &[u64], known: &Known, dice: &mut Dice) -> Explaining {
    let some: Vec<u64> =
        messages.iter().enumerate().filter(|(at, _)| *at == 0 || dice.percent(EXPLAINED)).map(|(_, message)| *message).collect();
    let due = |message: &u64| match known {
        Known::Rows(rows) => {
            let own = (1..).zip(rows).find(|(number, _)| number == message);
            Some(own.map_or(Explained::refused(Reason::NoMessage), |(_, rows)| Explained::accepted(rows.len())))
        }
        _ => None,
    };
    Explaining { feed: feed.clone(), known: some.iter().map(due).collect(), messages: some, by_codes: dice.percent(BY_CODES) }
}

/// A message that is wrong by this reason; what must be said of it is known.
fn aimed_at(reason: Reason, dice: &mut Dice) -> Explaining {
    let Aimed { feed, message, known } = aimed(reason, dice);
    Explaining { feed, messages: vec![message], known: vec![Some(known)], by_codes: dice.percent(BY_CODES) }
}

/// The text that one turn of a seed brings.
pub fn generated_text(seed: u64, turn: usize) -> Item {
    let spoken = any_spoken(&mut Dice::new(seed, TEXT_TURNS + turn as u64));
    Item { name: format!("generated text {turn} of seed {seed}"), generated: true, ask: Ask::Say(spoken) }
}

/// The tables that one turn of a seed brings.
pub fn generated_tables(seed: u64, turn: usize) -> Item {
    let ask = match any_tables(&mut Dice::new(seed, TABLE_TURNS + turn as u64)) {
        Tables::One(told) => Ask::Move(told),
        Tables::Round(round) => Ask::Round(round),
    };
    Item { name: format!("generated tables {turn} of seed {seed}"), generated: true, ask }
}

/// The value that one turn of a seed brings.
pub fn generated_value(seed: u64, turn: usize) -> Item {
    let prompt = any_prompt(&mut Dice::new(seed, VALUE_TURNS + turn as u64));
    Item { name: format!("generated value {turn} of seed {seed}"), generated: true, ask: Ask::Voice(prompt) }
}

/// A feed, and what is foretold of it.
struct Made {
    feed: Bytes,
    known: Known,
    /// What its messages go out as, if it is sound.
    texts: Option<Vec<Vec<u8>>>,
}

/// A draft, sound or damaged, and whether it is sound.
fn any_draft(dice: &mut Dice) -> (Draft, bool) {
    let mut sketch = draft(dice);
    let sound = dice.percent(30);
    if !sound {
        let most = 2 + sketch.messages.len();
        (0..dice.between(1, most)).for_each(|_| harm_draft(&mut sketch, dice));
    }
    (sketch, sound)
}

/// A feed, sound or damaged, at times filled up to the old limit, or over the new one.
fn any_feed(dice: &mut Dice) -> Made {
    let (mut sketch, sound) = any_draft(dice);
    let place = dice.below(1000);
    if place < TOO_LONG {
        let size = FEED_LIMIT + dice.pick(&[1, 1, 1, 2, 245, 300, 65_536]);
        return padded(write(&sketch, dice).feed, size, dice);
    }
    if place < TOO_LONG + ABOUT_OLD_LIMIT {
        let wanted = OLD_LIMIT + dice.pick(&[0, 1, 2, 3, 301]) - 1;
        let size = write(&sketch, &mut dice.clone()).feed.len();
        fill(&mut sketch, dice, size, wanted);
        let mut feed = write(&sketch, dice).feed;
        // Line endings at the end bring it to its size, so its lines are nobody's foretelling.
        feed.resize(wanted, b'\n');
        return Made { feed: feed.into(), known: Known::Nothing, texts: None };
    }
    made(&sketch, sound, dice)
}

/// What is written of a draft and, if it is sound, foretold.
fn made(sketch: &Draft, sound: bool, dice: &mut Dice) -> Made {
    let Written { mut feed, rows, .. } = write(sketch, dice);
    if !sound {
        (0..dice.pick(&[0, 0, 0, 1, 2])).for_each(|_| harm_bytes(&mut feed, dice));
    }
    let texts = sound.then(|| sketch.messages.iter().map(|lines| sent(lines)).collect());
    Made { feed: feed.into(), known: if sound { Known::Rows(rows) } else { Known::Nothing }, texts }
}

/// A feed that is brought to its size by one byte again and again, mostly a line ending.
fn padded(front: Vec<u8>, size: usize, dice: &mut Dice) -> Made {
    let byte = dice.pick(b"\n\n\r x");
    Made { feed: Bytes::padded(front, size, byte), known: Known::Nothing, texts: None }
}

/// A feed with a message of more lines or rows than 16 bits count; half of them are damaged.
fn long_feed(dice: &mut Dice) -> Made {
    let mut sketch = draft(dice);
    lengthen(&mut sketch, dice);
    let sound = dice.percent(50);
    if !sound {
        harm_draft(&mut sketch, dice);
    }
    made(&sketch, sound, dice)
}

/// A feed of the greatest length, or one byte less.
fn greatest_feed(dice: &mut Dice) -> Made {
    let (sketch, _) = any_draft(dice);
    let size = FEED_LIMIT - dice.below(2);
    padded(write(&sketch, dice).feed, size, dice)
}

/// The message numbers to ask for: all that there are, and at times some that there are not.
fn asked(feed: &[u8], dice: &mut Dice) -> Vec<u64> {
    let count = Feed::new(feed).headings().unwrap_or(1) as u64;
    let mut messages: Vec<u64> = (1..=count).collect();
    if dice.percent(10) || count == 0 {
        messages.push(count + 1);
    }
    if dice.percent(5) {
        messages.push(0);
    }
    if dice.percent(5) {
        messages.push(dice.pick(&[u64::MAX, 1 << 32, (1 << 32) + 1, 1 << 63, 65_537]));
    }
    messages
}
