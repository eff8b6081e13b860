//! Runs the original and the port side by side. See README.md.

mod count;
mod directed;
#[cfg(archive)]
mod face;
mod known;
mod list;
mod model;
mod original;
mod ours;
mod rng;
mod session;
mod text;
mod values;
mod wrong;

use count::Counts;
use original::{Published, Seven, Three};
use ours::Ours;
use rng::Rng;
use std::{
    io::{IsTerminal, Write},
    process::ExitCode,
    time::Instant,
};

const USAGE: &str = "oracle [--seed S] [--ops N] [--only NAME] [--definition]
    compares; NAME is one of: known directed headers big exhaustive session small value lenenc text put escape duration row outside
    --definition: our side is the plain definition and not the archive
oracle --wrong K [--seed S] [--ops N]    our side is the definition with rule K wrong: must exit 1
oracle --all-wrong [--seed S]            each wrong rule in turn; exit 1 if one goes unnoticed
oracle --wrongs                          lists the wrong rules
oracle --list N [--seed S]               prints N lines of vectors, the original's answers (README.md says the format)
oracle --replay FILE [--definition]      our side on such a list";

const DEFAULT_OPS: u64 = 20_000_000;

/// Kinds that are made up at random, with their share of the calls.
const RANDOM: &[(&str, u64)] = &[
    ("session", 56),
    ("small", 10),
    ("value", 12),
    ("lenenc", 4),
    ("text", 2),
    ("put", 6),
    ("escape", 4),
    ("duration", 2),
    ("row", 2),
    ("outside", 2),
];
const FIXED: &[&str] = &["known", "directed", "headers", "big", "exhaustive"];

struct Progress {
    start: Instant,
    last: Instant,
    terminal: bool,
}

impl Progress {
    fn new() -> Self {
        Self { start: Instant::now(), last: Instant::now(), terminal: std::io::stderr().is_terminal() }
    }

    fn tell(&mut self, what: &str, done: u64, of: u64) {
        let every = if self.terminal { 0.2 } else { 10.0 };
        if self.last.elapsed().as_secs_f64() < every {
            return;
        }
        self.last = Instant::now();
        let line = format!("{what}: {done} of {of}, {:.0} s", self.start.elapsed().as_secs_f64());
        if self.terminal {
            eprint!("\r\x1b[K{line}");
        } else {
            eprintln!("{line}");
        }
        let _ = std::io::stderr().flush();
    }

    fn clear(&self) {
        if self.terminal {
            eprint!("\r\x1b[K");
        }
    }
}

fn one(kind: &str, ours: &Ours, rng: &mut Rng, counts: &mut Counts) -> Result<(), String> {
    match kind {
        "session" => session::random::<Published>(ours, rng, counts),
        "small" => {
            let side = Ours::definition(ours.wrong);
            if rng.chance(1, 2) { session::random::<Three>(&side, rng, counts) } else { session::random::<Seven>(&side, rng, counts) }
        }
        "value" => values::random_value(ours, rng, counts),
        "lenenc" => values::random_lenenc(ours, rng, counts),
        "text" => values::random_text(ours, rng, counts),
        "put" => values::random_put(ours, rng, counts),
        "escape" => values::random_escape(ours, rng, counts),
        "duration" => values::random_duration(ours, rng, counts),
        "row" => values::random_row(ours, rng, counts),
        "outside" => directed::outside(ours, rng, counts),
        _ => Err(format!("no kind {kind}")),
    }
}

fn fixed(kind: &str, ours: &Ours, counts: &mut Counts, tell: &mut dyn FnMut(&str)) -> Result<(), String> {
    match kind {
        "known" => known::all(counts),
        "directed" => {
            directed::cases(ours, counts)?;
            directed::marked(ours.wrong, counts)?;
            directed::small_writes(ours.wrong, counts)
        }
        "headers" => directed::headers(ours, counts, tell),
        "big" => directed::big(ours, counts, tell),
        _ => values::exhaustive(ours, counts, tell),
    }
}

/// All kinds, or one. The counts of each come back even if a difference ends it.
fn compare(
    ours: &Ours, seed: u64, ops: u64, only: Option<&str>, all: &mut Vec<(String, Counts)>, progress: &mut Progress,
) -> Result<(), String> {
    for kind in FIXED {
        if only.is_some_and(|o| o != *kind) || only.is_none() && ours.wrong != 0 {
            continue;
        }
        let mut counts = Counts::default();
        let done = fixed(kind, ours, &mut counts, &mut |what| progress.tell(what, 0, 0));
        all.push((kind.to_string(), counts));
        done.map_err(|why| format!("{kind}: {why}"))?;
    }
    for (kind, share) in RANDOM {
        if only.is_some_and(|o| o != *kind) || *kind == "outside" && !ours.packets {
            continue;
        }
        let budget = if only.is_some() { ops } else { ops * share / 100 };
        // Each kind has its own numbers, so that --only gives the same ones.
        let mut rng = Rng::new(seed.wrapping_mul(1_000_003).wrapping_add(kind.bytes().fold(7, |h, b| h * 31 + b as u64)));
        let mut counts = Counts::default();
        let mut done = Ok(());
        let mut round = 0u64;
        while counts.total < budget && done.is_ok() {
            done = one(kind, ours, &mut rng, &mut counts);
            round += 1;
            if round % 256 == 0 {
                progress.tell(kind, counts.total, budget);
            }
        }
        all.push((kind.to_string(), counts));
        done.map_err(|why| format!("{kind}: {why}"))?;
    }
    Ok(())
}

fn report(all: &[(String, Counts)]) -> u64 {
    let mut total = 0;
    for (kind, c) in all {
        println!("{kind}: {} operations", c.total);
        let list = |items: Vec<String>| {
            if !items.is_empty() {
                println!("    {}", items.join(", "));
            }
        };
        list(c.ops.iter().map(|(k, v)| format!("{k} {v}")).collect());
        list(c.answers.iter().map(|((k, no), v)| format!("{k} answering {no}: {v}")).collect());
        list(c.notes.iter().map(|(k, v)| format!("{k} {v}")).collect());
        total += c.total;
    }
    total
}

fn all_wrong(seed: u64, ops: u64) -> ExitCode {
    let mut unnoticed = 0;
    let mut progress = Progress::new();
    let mut run = |wrong: u32, kind: &str, ops: u64| {
        let mut all = Vec::new();
        let found = compare(&Ours::definition(wrong), seed, ops, Some(kind), &mut all, &mut progress);
        (found, all.iter().map(|(_, c)| c.total).sum::<u64>())
    };
    // With every rule right the same budget finds nothing.
    for (kind, _) in RANDOM.iter().filter(|(k, _)| *k != "outside") {
        if let (Err(why), _) = run(0, kind, ops) {
            println!("FAULT: with every rule right {why}");
            unnoticed += 1;
        }
    }
    for (no, kind, says) in wrong::WRONGS {
        match run(*no, kind, ops) {
            (Err(why), after) => {
                println!("{no:2} noticed by {kind} after {after} operations: {says}");
                for line in why.lines() {
                    println!("       {line}");
                }
            }
            (Ok(()), after) => {
                println!("{no:2} NOT NOTICED by {kind} in {after} operations: {says}");
                unnoticed += 1;
            }
        }
    }
    println!("{} wrong rules, {unnoticed} unnoticed or at fault (seed {seed}, {ops} operations each)", wrong::WRONGS.len());
    if unnoticed == 0 { ExitCode::SUCCESS } else { ExitCode::FAILURE }
}

fn main() -> ExitCode {
    // The original recurses once a frame: room for it.
    let worker = std::thread::Builder::new().stack_size(256 << 20).spawn(start).expect("a thread");
    worker.join().unwrap_or(ExitCode::FAILURE)
}

fn start() -> ExitCode {
    let (mut seed, mut ops, mut only, mut wrong, mut list) = (1u64, None, None, 0u32, None);
    let (mut all_rules, mut definition, mut replay) = (false, false, None);
    let mut args = std::env::args().skip(1);
    let usage = || {
        eprintln!("{USAGE}");
        ExitCode::from(2)
    };
    while let Some(arg) = args.next() {
        let mut number = || args.next().and_then(|v| v.replace('_', "").parse::<u64>().ok());
        match arg.as_str() {
            "--seed" => match number() {
                Some(v) => seed = v,
                None => return usage(),
            },
            "--ops" => match number() {
                Some(v) => ops = Some(v),
                None => return usage(),
            },
            "--wrong" => match number() {
                Some(v) if wrong::WRONGS.iter().any(|w| w.0 as u64 == v) => wrong = v as u32,
                _ => return usage(),
            },
            "--list" => match number() {
                Some(v) => list = Some(v),
                None => return usage(),
            },
            "--only" => match args.next() {
                Some(v) if FIXED.contains(&v.as_str()) || RANDOM.iter().any(|(k, _)| *k == v) => only = Some(v),
                _ => return usage(),
            },
            "--replay" => match args.next() {
                Some(v) => replay = Some(v),
                None => return usage(),
            },
            "--all-wrong" => all_rules = true,
            "--definition" => definition = true,
            "--wrongs" => {
                for (no, kind, says) in wrong::WRONGS {
                    println!("{no:2} {kind}: {says}");
                }
                return ExitCode::SUCCESS;
            }
            "--help" => {
                println!("{USAGE}");
                return ExitCode::SUCCESS;
            }
            _ => return usage(),
        }
    }
    if let Some(n) = list {
        return list::print(n, seed);
    }
    if all_rules {
        return all_wrong(seed, ops.unwrap_or(300_000));
    }
    let ours = if wrong != 0 || definition { Ours::definition(wrong) } else { Ours::archive() };
    if let Some(path) = replay {
        return list::replay(&path, &ours);
    }
    if wrong != 0 && only.is_none() {
        only = wrong::WRONGS.iter().find(|w| w.0 == wrong).map(|w| w.1.to_string());
    }
    let ops = ops.unwrap_or(if wrong != 0 { 300_000 } else { DEFAULT_OPS });
    println!(
        "oracle: seed {seed}, {ops} operations, values: {}, packets: {}{}",
        if ours.values { "the archive" } else { "THE DEFINITION, not the archive" },
        if ours.packets { "the archive" } else { "THE DEFINITION, not the archive" },
        if wrong != 0 { format!(", rule {wrong} wrong on purpose") } else { String::new() }
    );
    let mut all = Vec::new();
    let mut progress = Progress::new();
    let found = compare(&ours, seed, ops, only.as_deref(), &mut all, &mut progress);
    progress.clear();
    let total = report(&all);
    let seconds = progress.start.elapsed().as_secs_f64();
    match found {
        Ok(()) => {
            println!("no difference in {total} operations, {seconds:.0} s");
            if wrong == 0 && !definition && !(ours.values && ours.packets) {
                println!("NO PASS: the archive was not linked, or is without packets; --definition says that this is meant");
                return ExitCode::from(3);
            }
            ExitCode::SUCCESS
        }
        Err(why) => {
            println!("DIFFERENCE after {total} operations (seed {seed}):\n  {why}");
            ExitCode::FAILURE
        }
    }
}
