//! Sets the library, linked through its C interface, beside the reference: every answer, every place of every tree,
//! every byte written. `outside [--seed N] [--long] [--family NAME] [--folder DIR] [--trace]`, or `outside --replay FILE`.

mod bench;
mod calls;
mod exact;
mod families;
mod floor;
mod lent;
mod records;
mod session;
mod stack;
mod step;
mod tally;

use bench::Bench;
use families::{Family, FAMILIES};
use reference::random::Random;
use session::{Mismatch, Session};
use std::path::PathBuf;
use std::process::ExitCode;
use std::time::Instant;
use std::{env, fs, thread};
use tally::Tally;

const SEED: u64 = 2026;
const LONG: usize = 25;

/// The stack that the largest sheet has to run in.
const STACK: usize = 2 << 20;

struct Wanted {
    seed: u64,
    times: usize,
    family: Option<String>,
    folder: PathBuf,
    trace: bool,
    replay: Option<PathBuf>,
}

fn wanted() -> Result<Wanted, String> {
    let folder = PathBuf::from(".");
    let mut wanted = Wanted { seed: SEED, times: 1, family: None, folder, trace: false, replay: None };
    let mut words = env::args().skip(1);
    while let Some(word) = words.next() {
        let mut next = || words.next().ok_or(format!("{word} wants a word after it"));
        match &word[..] {
            "--seed" => wanted.seed = next()?.parse().map_err(|_| "a seed is a number")?,
            "--long" => wanted.times = LONG,
            "--family" => wanted.family = Some(known(next()?)?),
            "--folder" => wanted.folder = next()?.into(),
            "--trace" => wanted.trace = true,
            "--replay" => wanted.replay = Some(next()?.into()),
            _ => return Err(format!("not known: {word}")),
        }
    }
    Ok(wanted)
}

fn known(family: String) -> Result<String, String> {
    let names = FAMILIES.map(|family| family.name);
    if names.contains(&&family[..]) {
        return Ok(family);
    }
    Err(format!("the families are {}", names.join(", ")))
}

/// A family's tally, and the words on its first disagreement, or on too few comparisons.
fn play_family(wanted: &Wanted, number: usize) -> (Tally, Option<String>) {
    let Family { name, play, least } = FAMILIES[number];
    // A family's own draws, whichever others are played.
    let random = Random::new(wanted.seed.wrapping_mul(1000).wrapping_add(number as u64));
    let (times, folder, trace) = (wanted.times, &wanted.folder, wanted.trace);
    let mut bench = Bench { family: name, random, times, folder, trace, tally: Tally::default() };
    let said = match play(&mut bench) {
        Err(Mismatch(said)) => Some(said),
        Ok(()) if bench.tally.compared < least => Some(format!("{name} must make {least} comparisons at least")),
        Ok(()) => None,
    };
    (bench.tally, said)
}

/// Plays the families, all at the same time, each on a stack of its own; true if none found a disagreement and all that
/// has to be met was.
fn play(wanted: &Wanted) -> bool {
    println!("seed {}", wanted.seed);
    let began = Instant::now();
    let (mut total, mut failed) = (Tally::default(), Vec::new());
    let is_wanted = |number: &usize| wanted.family.as_ref().is_none_or(|family| family == FAMILIES[*number].name);
    thread::scope(|scope| {
        let start = |number| {
            let thread = thread::Builder::new().stack_size(STACK);
            let thread = thread.spawn_scoped(scope, move || play_family(wanted, number));
            (FAMILIES[number].name, thread.expect("a thread for each family"))
        };
        let playing: Vec<_> = (0..FAMILIES.len()).filter(is_wanted).map(start).collect();
        for (family, thread) in playing {
            let panicked = |_| (Tally::default(), Some(format!("{family} panicked")));
            let (tally, said) = thread.join().unwrap_or_else(panicked);
            println!("{:>10} comparisons  {family}", tally.compared);
            total.add(&tally);
            if let Some(said) = said {
                println!("{said}");
                failed.push(family);
            }
        }
    });
    println!("{:>10} comparisons in all ({:.1} s)", total.compared, began.elapsed().as_secs_f64());
    println!("{}", total.answers());
    // One family alone need not meet everything.
    if wanted.family.is_none() && !floor::is_met(&total) {
        failed.push("what has to be met");
    }
    if !failed.is_empty() {
        println!("FAILED: {}", failed.join(", "));
    }
    failed.is_empty()
}

/// Makes the steps of a case again, each told before it is made.
fn replay(file: &PathBuf) -> Result<bool, String> {
    let text = fs::read_to_string(file).map_err(|error| format!("{}: {error}", file.display()))?;
    let mut session = Session::new(None);
    for step in step::parse(&text)? {
        println!("{step}");
        if let Err(mismatch) = session.make(step) {
            println!("{}", mismatch.0);
            return Ok(false);
        }
    }
    println!("{} comparisons, no disagreement", session.tally.compared);
    Ok(true)
}

fn main() -> ExitCode {
    let played = wanted().and_then(|wanted| match &wanted.replay {
        Some(file) => replay(file),
        None => Ok(play(&wanted)),
    });
    match played {
        Ok(true) => ExitCode::SUCCESS,
        Ok(false) => ExitCode::FAILURE,
        Err(said) => {
            eprintln!("outside: {said}");
            ExitCode::from(2)
        }
    }
}
