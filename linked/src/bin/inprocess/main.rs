//! Compares the linked library with the second program in process on generated sheets, byte for byte, kept bytes too,
//! and shows that a fault would be noticed.
//!
//! `inprocess [SHEETS [SEED [THREADS]]]` and `inprocess --broken [SHEETS [SEED]]`.

mod check;
mod fault;

use check::{check, Lender, Linked, Right};
use fault::{Fault, StandIn};
use second::differ::beside;
use second::generate;
use std::fs;
use std::process::ExitCode;
use std::sync::atomic::{AtomicBool, AtomicU64, Ordering::Relaxed};
use std::thread;
use std::time::Instant;

const SHEETS: u64 = 100_000;
const BROKEN_SHEETS: u64 = 2_000;
const SEED: u64 = 1;

fn main() -> ExitCode {
    let args: Vec<String> = std::env::args().skip(1).collect();
    let words: Vec<&str> = args.iter().map(String::as_str).collect();
    match chosen(&words) {
        Ok(()) => ExitCode::SUCCESS,
        Err(why) => {
            eprintln!("inprocess: {why}");
            ExitCode::FAILURE
        }
    }
}

fn chosen(words: &[&str]) -> Result<(), String> {
    let usage = "usage: inprocess [SHEETS [SEED [THREADS]]], or inprocess --broken [SHEETS [SEED]]";
    let (is_broken, numbers) = match words {
        ["--broken", rest @ ..] => (true, rest),
        all => (false, all),
    };
    let numbers: Vec<u64> = numbers.iter().map(|word| word.parse().map_err(|_| usage)).collect::<Result<_, _>>()?;
    let all_cores = thread::available_parallelism().map_or(1, usize::from) as u64;
    match (is_broken, &numbers[..]) {
        (false, [0, ..] | [_, _, 0]) | (true, [0, ..]) => Err("0 sheets or threads compare nothing".into()),
        (false, []) => compare(SHEETS, SEED, all_cores),
        (false, &[sheets]) => compare(sheets, SEED, all_cores),
        (false, &[sheets, seed]) => compare(sheets, seed, all_cores),
        (false, &[sheets, seed, threads]) => compare(sheets, seed, threads),
        (true, []) => broken(BROKEN_SHEETS, SEED),
        (true, &[sheets]) => broken(sheets, SEED),
        (true, &[sheets, seed]) => broken(sheets, seed),
        _ => Err(usage.into()),
    }
}

/// What one thread has compared.
#[derive(Default)]
struct Count {
    accepted: u64,
    /// By number, from 20 on.
    refused: [u64; 5],
    events: usize,
    bytes_in: usize,
    bytes_out: usize,
}

impl Count {
    fn add(&mut self, sheet: &[u8], right: &Right) {
        match right.refusal {
            None => self.accepted += 1,
            Some(number) => self.refused[usize::from(number - 20)] += 1,
        }
        self.events += right.events;
        self.bytes_in += sheet.len();
        self.bytes_out += right.text.len();
    }

    fn join(mut self, other: Count) -> Count {
        self.accepted += other.accepted;
        self.refused.iter_mut().zip(other.refused).for_each(|(one, more)| *one += more);
        self.events += other.events;
        self.bytes_in += other.bytes_in;
        self.bytes_out += other.bytes_out;
        self
    }
}

/// A sheet by its number, and what differs.
type Difference = (u64, String);

fn compare(sheets: u64, seed: u64, threads: u64) -> Result<(), String> {
    let (next, stop) = (AtomicU64::new(0), AtomicBool::new(false));
    let start = Instant::now();
    let work = || worker(&next, &stop, sheets, seed);
    let ends: Vec<Result<Count, Difference>> = thread::scope(|scope| {
        let all: Vec<_> = (0..threads).map(|_| scope.spawn(work)).collect();
        all.into_iter().map(|one| one.join().expect("a thread ends")).collect()
    });
    let seconds = start.elapsed().as_secs_f64();
    if let Some((k, what)) = ends.iter().filter_map(|end| end.as_ref().err()).min() {
        let kept = beside(&format!("differs-{seed}-{k}.sheet"))?;
        fs::write(&kept, generate::sheet(seed, *k)).map_err(|why| format!("{}: {why}", kept.display()))?;
        return Err(format!("sheet {k} of seed {seed}: {what}\nthe sheet is {}", kept.display()));
    }
    let count = ends.into_iter().flatten().fold(Count::default(), Count::join);
    let refused: Vec<String> = count.refused.iter().zip(20..).map(|(count, number)| format!("{count} by {number}")).collect();
    println!("{} accepted with {} events; refused: {}", count.accepted, count.events, refused.join(", "));
    println!("{} bytes in, {} bytes out, {threads} threads, {seconds:.1} s", count.bytes_in, count.bytes_out);
    println!("{sheets} sheets of seed {seed}: 0 differences, {:.0} sheets an hour", sheets as f64 * 3600.0 / seconds);
    Ok(())
}

/// Takes sheet after sheet until all are done or some thread has found a difference.
fn worker(next: &AtomicU64, stop: &AtomicBool, sheets: u64, seed: u64) -> Result<Count, Difference> {
    let (mut lender, mut count) = (Lender::new(), Count::default());
    while !stop.load(Relaxed) {
        let k = next.fetch_add(1, Relaxed);
        if k >= sheets {
            break;
        }
        let sheet = generate::sheet(seed, k);
        let right = Right::of(&sheet);
        if let Some(what) = check(&Linked, k, &sheet, &right, &mut lender) {
            stop.store(true, Relaxed);
            return Err((k, what));
        }
        count.add(&sheet, &right);
    }
    Ok(count)
}

/// Every fault must be noticed on some sheet, and a stand-in without a fault on none.
fn broken(sheets: u64, seed: u64) -> Result<(), String> {
    let faults = Fault::all();
    let mut noticed = vec![0; faults.len()];
    let mut lender = Lender::new();
    for k in 0..sheets {
        let sheet = generate::sheet(seed, k);
        let right = Right::of(&sheet);
        let mut notices = |fault| check(&StandIn(fault, &right), k, &sheet, &right, &mut lender);
        if let Some(what) = notices(Fault::None) {
            return Err(format!("sheet {k} of seed {seed}: a stand-in without a fault differs: {what}"));
        }
        for (count, &(fault, _)) in noticed.iter_mut().zip(&faults) {
            *count += u64::from(notices(fault).is_some());
        }
    }
    for (count, (_, name)) in noticed.iter().zip(&faults) {
        println!("{count:>9}  sheets notice that {name}");
    }
    if noticed.contains(&0) {
        Err("a fault is not noticed".into())
    } else {
        Ok(())
    }
}
