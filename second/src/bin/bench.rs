//! The bench: `bench make DIR` writes its sheets, `bench time PROGRAM SECOND DIR RUNS` times two programs on them in turn.

use second::generate;
use second::random::Random;
use second::sheet::{Draft, Event, Write, MOST_EVENTS};
use second::style::Style;
use std::fs::{self, File};
use std::path::{Path, PathBuf};
use std::process::{Command, ExitCode, Stdio};
use std::time::{Duration, Instant};

const KINDS: [&str; 4] = ["idle", "llx", "scx", "conflict"];
const COUNTS: [usize; 4] = [0, MOST_EVENTS / 4, MOST_EVENTS / 2, MOST_EVENTS];

fn main() -> ExitCode {
    let args: Vec<String> = std::env::args().skip(1).collect();
    let words: Vec<&str> = args.iter().map(String::as_str).collect();
    let done = match words[..] {
        ["make", dir] => make(Path::new(dir)),
        ["time", program, second, dir, runs] => match runs.parse() {
            Ok(runs) if runs > 0 => time(program, second, Path::new(dir), runs),
            _ => Err("RUNS is a number above 0".into()),
        },
        _ => Err("usage: bench make DIR, or bench time PROGRAM SECOND DIR RUNS".into()),
    };
    match done {
        Ok(()) => ExitCode::SUCCESS,
        Err(why) => {
            eprintln!("bench: {why}");
            ExitCode::FAILURE
        }
    }
}

fn file(dir: &Path, kind: &str, count: usize) -> PathBuf {
    dir.join(format!("{kind}-{count}.sheet"))
}

fn make(dir: &Path) -> Result<(), String> {
    for kind in KINDS {
        let mut draft = draft(kind);
        let events = std::mem::take(&mut draft.events);
        for count in COUNTS {
            draft.events = events[..count].to_vec();
            fs::write(file(dir, kind, count), draft.bytes()).map_err(|why| why.to_string())?;
        }
    }
    Ok(())
}

/// The longest sheet of a kind.
fn draft(kind: &str) -> Draft {
    if kind == "conflict" {
        return conflict();
    }
    let mut events = Vec::new();
    while events.len() < MOST_EVENTS {
        let t = (events.len() / 100 % 8) as u8;
        match kind {
            // All refused: steps of idle tasks, and one call in ten of a task that is not there.
            "idle" => events.push(Event::Step { t: if events.len() % 10 == 9 { 8 } else { t } }),
            "llx" => undisturbed(&mut events, Event::Llx { t, r: t }, 9),
            // After 255 changes the SCX is refused, and so are its steps.
            _ => {
                undisturbed(&mut events, Event::Llx { t, r: 0 }, 9);
                let write = Write { closes: 0, place: 0, field: 0, new: events.len() as u16 };
                undisturbed(&mut events, Event::Scx { t, n: 1, list: [0; 4], write }, 4);
            }
        }
    }
    let events = events.iter().take(MOST_EVENTS).map(Event::bytes).collect();
    Draft { heading: Vec::new(), p: 8, values: vec![[5; 4]; 8], events }
}

fn undisturbed(events: &mut Vec<Event>, start: Event, steps: usize) {
    events.push(start);
    events.extend(vec![Event::Step { t: start.task() }; steps]);
}

/// Eight tasks over two records, most events another task's than the event before.
fn conflict() -> Draft {
    let mut random = Random::of(1, 0);
    let mut style = Style::of(1, &mut random);
    (style.p, style.n, style.hot, style.list, style.fields, style.values) = (8, 2, 2, 2, 4, 65_536);
    (style.close, style.spoil, style.stay, style.nap, style.nap_length, style.stop) = (0, 0, 300, 20, 60, 0);
    (style.events, style.heading, style.scenes) = (MOST_EVENTS, 0, false);
    generate::valid(style, random)
}

/// Prints the medians, and their ratio with and without what an empty sheet takes.
fn time(program: &str, second: &str, dir: &Path, runs: usize) -> Result<(), String> {
    let (empty, empty_second) = medians(program, second, &file(dir, "idle", 0), runs)?;
    println!("{:>10} {:>12} {:>12} {:>8} {:>14}", "sheet", "program us", "second us", "ratio", "above empty");
    println!("{:>10} {:>12.0} {:>12.0} {:>8.2}", "empty", empty, empty_second, empty / empty_second);
    for kind in KINDS {
        let (one, other) = medians(program, second, &file(dir, kind, MOST_EVENTS), runs)?;
        let above = (one - empty) / (other - empty_second);
        println!("{kind:>10} {one:>12.0} {other:>12.0} {:>8.2} {above:>14.2}", one / other);
    }
    Ok(())
}

/// The median times of both in microseconds, run in turn, so that what slows the computer for a while slows both.
fn medians(program: &str, second: &str, sheet: &Path, runs: usize) -> Result<(f64, f64), String> {
    let (mut one, mut other) = (Vec::new(), Vec::new());
    for _ in 0..runs {
        one.push(once(program, sheet)?);
        other.push(once(second, sheet)?);
    }
    let median = |all: &mut Vec<Duration>| {
        all.sort();
        all[all.len() / 2].as_secs_f64() * 1e6
    };
    Ok((median(&mut one), median(&mut other)))
}

fn once(program: &str, sheet: &Path) -> Result<Duration, String> {
    let input = File::open(sheet).map_err(|why| format!("{}: {why}", sheet.display()))?;
    let start = Instant::now();
    let status = Command::new(program).stdin(input).stdout(Stdio::null()).status();
    let took = start.elapsed();
    match status {
        Ok(status) if status.success() => Ok(took),
        Ok(status) => Err(format!("{program}: {status}")),
        Err(why) => Err(format!("{program}: {why}")),
    }
}
