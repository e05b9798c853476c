//! Compares another program with the second one on generated sheets, byte for byte, and shows that a broken machine would be noticed.
//!
//! `compare PROGRAM [SHEETS [SEED]]` and `compare --broken [SHEETS [SEED]]`.

use second::cover::Cover;
use second::differ::{beside, difference};
use second::sheet::{Sheet, EVENT};
use second::watch::{Broken, Mistake, Nobody};
use second::{generate, runner};
use std::fs::{self, File};
use std::path::Path;
use std::process::{Command, ExitCode, Stdio};

const SHEETS: u64 = 2000;
const SEED: u64 = 1;

fn main() -> ExitCode {
    let args: Vec<String> = std::env::args().skip(1).collect();
    let number = |i: usize, usual: u64| args.get(i).map_or(Some(usual), |word| word.parse().ok());
    let done = match (args.first(), number(1, SHEETS), number(2, SEED)) {
        (Some(what), Some(sheets), Some(seed)) if what == "--broken" => broken(sheets, seed),
        (Some(program), Some(sheets), Some(seed)) => compare(program, sheets, seed),
        _ => Err("usage: compare PROGRAM|--broken [SHEETS [SEED]]".into()),
    };
    match done {
        Ok(()) => ExitCode::SUCCESS,
        Err(why) => {
            eprintln!("compare: {why}");
            ExitCode::FAILURE
        }
    }
}

fn compare(program: &str, sheets: u64, seed: u64) -> Result<(), String> {
    let path = beside(&format!("compare-{}.sheet", std::process::id()))?;
    let mut cover = Cover::default();
    let (mut events, mut bytes_in, mut bytes_out) = (0, 0, 0);
    for k in 0..sheets {
        let sheet = generate::sheet(seed, k);
        fs::write(&path, &sheet).map_err(|why| format!("{}: {why}", path.display()))?;
        let ours = runner::run(&sheet, &mut cover);
        if let Some(difference) = theirs(program, &path).map_or_else(Some, |theirs| difference(ours.as_bytes(), &theirs)) {
            let kept = beside(&format!("differs-{seed}-{k}.sheet"))?;
            fs::rename(&path, &kept).map_err(|why| format!("{}: {why}", kept.display()))?;
            return Err(format!("sheet {k} of seed {seed}: {difference}\nthe sheet is {}", kept.display()));
        }
        events += Sheet::read(&sheet, &mut Nobody).map_or(0, |sheet| sheet.events.len() / EVENT);
        bytes_in += sheet.len();
        bytes_out += ours.len();
    }
    fs::remove_file(&path).map_err(|why| format!("{}: {why}", path.display()))?;
    print!("{}", cover.table());
    println!("{sheets} sheets of seed {seed}: {events} events, {bytes_in} bytes in, {bytes_out} bytes out, all the same");
    judge(&cover, sheets)
}

/// What the other program prints for the sheet in this file.
fn theirs(program: &str, path: &Path) -> Result<Vec<u8>, String> {
    let input = File::open(path).map_err(|why| why.to_string())?;
    let run = Command::new(program).stdin(input).stderr(Stdio::inherit()).output();
    let output = run.map_err(|why| format!("{program}: {why}"))?;
    if output.status.success() {
        Ok(output.stdout)
    } else {
        Err(format!("{program}: {}", output.status))
    }
}

/// Nothing unreachable may be reached; that everything reachable is can be asked only of the usual number of sheets.
fn judge(cover: &Cover, sheets: u64) -> Result<(), String> {
    let (reached, all) = cover.reached();
    println!("{reached} of {all} reachable branches, answers and refusals reached");
    let missing = if sheets < SHEETS { Vec::new() } else { cover.missing() };
    let faults = [missing, cover.strange()].concat();
    if faults.is_empty() {
        Ok(())
    } else {
        Err(faults.join("\n"))
    }
}

/// Every mistake must show in the text of some sheet.
fn broken(sheets: u64, seed: u64) -> Result<(), String> {
    let mut noticed = [0; Mistake::ALL.len()];
    for k in 0..sheets {
        let sheet = generate::sheet(seed, k);
        let right = runner::run(&sheet, &mut Nobody);
        for (count, (mistake, _)) in noticed.iter_mut().zip(Mistake::ALL) {
            *count += u64::from(runner::run(&sheet, &mut Broken(mistake)) != right);
        }
    }
    for (count, (_, name)) in noticed.iter().zip(Mistake::ALL) {
        println!("{count:>9}  sheets notice that {name}");
    }
    if noticed.contains(&0) {
        Err("a mistake is not noticed".into())
    } else {
        Ok(())
    }
}
