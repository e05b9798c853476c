//! The generator: `sheets SEED K` prints sheet K of a seed, `sheets cover SEED COUNT` prints what its first COUNT sheets reach.

use second::cover::Cover;
use second::{generate, runner};
use std::io::{self, Write};
use std::process::ExitCode;

fn main() -> ExitCode {
    let args: Vec<String> = std::env::args().skip(1).collect();
    let number = |i: usize| args.get(i).and_then(|word| word.parse::<u64>().ok());
    if args.first().is_some_and(|word| word == "cover") {
        return number(1).zip(number(2)).map_or_else(usage, |(seed, count)| cover(seed, count));
    }
    match number(0).zip(number(1)) {
        Some((seed, k)) => match io::stdout().lock().write_all(&generate::sheet(seed, k)) {
            Ok(()) => ExitCode::SUCCESS,
            Err(_) => ExitCode::FAILURE,
        },
        None => usage(),
    }
}

fn usage() -> ExitCode {
    eprintln!("usage: sheets SEED K, or sheets cover SEED COUNT");
    ExitCode::FAILURE
}

fn cover(seed: u64, count: u64) -> ExitCode {
    let mut cover = Cover::default();
    for k in 0..count {
        runner::run(&generate::sheet(seed, k), &mut cover);
    }
    print!("{}", cover.table());
    let faults = [cover.missing(), cover.strange()].concat();
    faults.iter().for_each(|fault| println!("{fault}"));
    if faults.is_empty() {
        ExitCode::SUCCESS
    } else {
        ExitCode::FAILURE
    }
}
