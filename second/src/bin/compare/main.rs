//! Runs the second judge, explainer, desk, writer, sayer, mover and speaker beside the product's C face, on fixed cases and on generated feeds,
//! texts, tables and values, and names every difference.

mod again;
mod blames;
mod degrees;
mod desks;
mod explaining;
mod items;
mod judging;
mod moving;
mod outputs;
mod phrases;
mod previewing;
mod previews;
mod roundings;
mod saying;
mod sending;
mod shown;
mod sixty;
mod tally;
mod voicing;
mod widths;
mod words;

use items::{
    case_items, desk_items, explain_item, generated_items, generated_tables, generated_text, generated_value, move_item, say_item,
    send_item, sit_item, voice_item, Ask, Item,
};
use second::cases;
use second::face::{Face, Requests};
use std::process::ExitCode;
use std::time::{Duration, Instant};
use tally::{Generated, Tally, WHOLE};

const HELP: &str = "\
compare --self [--seed N] [--feeds N] [--texts N] [--tables N] [--words N]
    runs the second program alone: fixed cases against their answers, sound feeds, calls on a desk, previews, writings, explanations, texts,
    tables and values to be said in words against what is foretold
compare [--seed N] [--feeds N] [--texts N] [--tables N] [--words N] --face COMMAND...
    runs it beside the product's C face; everything after --face is the command that starts the face";

/// Calls that go to the face at a time; fewer, if their requests have more bytes than these.
const BATCH: usize = 256;
const BATCH_BYTES: usize = 1 << 24;

/// A run that differs this often has shown enough.
const ENOUGH: usize = 10;

struct Options {
    seed: u64,
    generated: Generated,
    /// The command that starts the face, or nothing to run the second program alone.
    face: Option<Vec<String>>,
}

fn main() -> ExitCode {
    let arguments: Vec<String> = std::env::args().skip(1).collect();
    if arguments.iter().any(|word| word == "--help") {
        println!("{HELP}");
        return ExitCode::SUCCESS;
    }
    match options(&arguments).and_then(|options| run(&options)) {
        Ok(true) => ExitCode::SUCCESS,
        Ok(false) => ExitCode::FAILURE,
        Err(why) => {
            println!("{why}");
            println!("the comparison was not made, or not to its end");
            ExitCode::FAILURE
        }
    }
}

fn options(arguments: &[String]) -> Result<Options, String> {
    let mut options = Options { seed: 1, generated: WHOLE, face: None };
    let generated = &mut options.generated;
    let mut alone = false;
    let mut at = 0;
    while at < arguments.len() {
        match arguments[at].as_str() {
            "--self" => alone = true,
            "--seed" => options.seed = number(arguments, &mut at)?,
            "--feeds" => generated.feeds = number(arguments, &mut at)? as usize,
            "--texts" => generated.texts = number(arguments, &mut at)? as usize,
            "--tables" => generated.tables = number(arguments, &mut at)? as usize,
            "--words" => generated.values = number(arguments, &mut at)? as usize,
            "--face" => {
                options.face = Some(arguments[at + 1..].to_vec());
                break;
            }
            other => return Err(format!("not an option: {other}\n{HELP}")),
        }
        at += 1;
    }
    if alone == options.face.is_some() {
        return Err(format!("give either --self or --face\n{HELP}"));
    }
    Ok(options)
}

fn number(arguments: &[String], at: &mut usize) -> Result<u64, String> {
    *at += 1;
    let word = arguments.get(*at).ok_or_else(|| format!("a number is missing after {}", arguments[*at - 1]))?;
    word.parse().map_err(|_| format!("not a number: {word}"))
}

fn run(options: &Options) -> Result<bool, String> {
    let (fixed, desks, sendings, sayings, movings) = (cases::all(), cases::desks(), cases::sendings(), cases::sayings(), cases::movings());
    let (explainings, previewings, voicings) = (cases::explainings(), cases::previewings(), cases::voicings());
    let (seed, generated) = (options.seed, options.generated);
    let mut progress = Progress { last: Instant::now(), feeds: fixed.len() + generated.feeds, texts: sayings.len() + generated.texts };
    println!("seed {seed}");
    let of_desks = format!("{} of placings, {} of tickets, {} of previews", desks.placings.len(), desks.reads.len(), previewings.len());
    let of_others = format!("{} of writings, {} of sayings, {} of widenings and narrowings", sendings.len(), sayings.len(), movings.len());
    let of_others = format!("{of_others}, {} of voicings", voicings.len());
    println!("{} fixed cases of judging, {} of explanations, {of_desks}, {of_others}", fixed.len(), explainings.len());
    println!("{} generated feeds", generated.feeds);
    println!("{} generated texts", generated.texts);
    println!("{} generated turns of tables", generated.tables);
    println!("{} generated values", generated.values);
    let mut face = options.face.as_ref().map(|command| Face::start(command)).transpose()?;
    let mut tally = Tally::new();
    let judged = fixed.into_iter().flat_map(case_items);
    let on_desks = desk_items(desks).into_iter().chain(previewings.into_iter().map(sit_item));
    let others = on_desks.chain(sendings.into_iter().map(send_item)).chain(sayings.into_iter().map(say_item));
    let others = others.chain(movings.into_iter().map(move_item)).chain(explainings.into_iter().map(explain_item));
    let others = others.chain(voicings.into_iter().map(voice_item));
    let feeds = (0..generated.feeds).flat_map(|turn| generated_items(seed, turn));
    let texts = (0..generated.texts).map(|turn| generated_text(seed, turn));
    let tables = (0..generated.tables).map(|turn| generated_tables(seed, turn));
    let values = (0..generated.values).map(|turn| generated_value(seed, turn));
    let items = judged.chain(others).chain(feeds).chain(texts).chain(tables).chain(values);
    compare_all(items, options, face.as_mut(), &mut tally, &mut progress)?;
    // A run that has stopped early leaves answers unread, and says so by its differences.
    if let Some(face) = face.as_mut().filter(|_| tally.differences < ENOUGH) {
        face.finish()?;
    }
    Ok(tally.report(generated))
}

/// Asks about everything in batches; the face works on one batch while the second program works on the one before.
fn compare_all(
    mut items: impl Iterator<Item = Item>,
    options: &Options,
    mut face: Option<&mut Face>,
    tally: &mut Tally,
    progress: &mut Progress,
) -> Result<(), String> {
    let mut waiting: Vec<Item> = Vec::new();
    let mut requests = Requests::default();
    loop {
        let batch = next_batch(&mut items, &mut requests);
        let bytes = requests.take();
        if let Some(face) = face.as_deref_mut().filter(|_| !batch.is_empty()) {
            face.send(bytes);
        }
        for (at, item) in waiting.iter().enumerate() {
            let rest = || waiting[at..].iter().chain(&batch);
            compare(item, face.as_deref_mut(), tally).map_err(|why| format!("{why}\n{}", blame(rest(), options, tally)))?;
            if tally.differences >= ENOUGH {
                println!("{ENOUGH} differences are enough, the rest was left out");
                return Ok(());
            }
        }
        progress.tell(tally);
        if batch.is_empty() {
            return Ok(());
        }
        waiting = batch;
    }
}

/// The next few items, with their requests.
fn next_batch(items: &mut impl Iterator<Item = Item>, requests: &mut Requests) -> Vec<Item> {
    let mut batch = Vec::new();
    while batch.len() < BATCH && requests.size() < BATCH_BYTES {
        let Some(item) = items.next() else { break };
        item.add_to(requests);
        batch.push(item);
    }
    batch
}

/// Says which call the face does not outlive, by asking a fresh face for each, since answers come many at a time.
fn blame<'i>(mut items: impl Iterator<Item = &'i Item>, options: &Options, tally: &mut Tally) -> String {
    let command = options.face.clone().unwrap_or_default();
    let survives = |item: &&Item| {
        let Ok(mut face) = Face::start(&command) else { return false };
        let mut requests = Requests::default();
        item.add_to(&mut requests);
        face.send(requests.take());
        item.is_answered_by(&mut face)
    };
    tally.differences += 1;
    match items.find(|item| !survives(item)) {
        Some(item) => format!("the call that it does not outlive: {}\n{}", item.name, tally.keep(item)),
        None => "no single call makes it end".to_string(),
    }
}

/// Tells of a long run every few seconds.
struct Progress {
    last: Instant,
    feeds: usize,
    texts: usize,
}

impl Progress {
    fn tell(&mut self, tally: &Tally) {
        if self.last.elapsed() >= Duration::from_secs(3) {
            let done = format!("{} of {} feeds and {} of {} texts done", tally.feeds, self.feeds, tally.texts, self.texts);
            eprintln!("{done}, {} differences so far", tally.differences);
            self.last = Instant::now();
        }
    }
}

/// Asks the second program and the face, and tells what differs.
fn compare(item: &Item, face: Option<&mut Face>, tally: &mut Tally) -> Result<(), String> {
    let facts = match &item.ask {
        Ask::Judge(judging) => judging::compare_judged(judging, item.generated, face, tally),
        Ask::Explain(explaining) => explaining::compare_explained(explaining, item.generated, face, tally),
        Ask::Place(placing, known) => desks::compare_placing(placing, known, item.generated, face, tally),
        Ask::Read(reading, known) => desks::compare_read(reading, known, item.generated, face, tally),
        Ask::Sit(sitting, known) => previewing::compare_sitting(sitting, known, item.generated, face, tally),
        Ask::Write(writing) => sending::compare_sent(writing, item.generated, face, tally),
        Ask::Again(again) => again::compare_again(again, item.generated, face, tally),
        Ask::Say(spoken) => saying::compare_said(spoken, item.generated, face, tally),
        Ask::Move(told) => moving::compare_moved(told, item.generated, face, tally),
        Ask::Round(round) => moving::compare_round(round, item.generated, face, tally),
        Ask::Voice(prompt) => voicing::compare_voiced(prompt, item.generated, face, tally),
    }?;
    if !facts.is_empty() {
        tally.differences += 1;
        println!("difference {}: {}", tally.differences, item.name);
        facts.iter().for_each(|fact| println!("{fact}"));
        println!("{}", tally.keep(item));
    }
    Ok(())
}
