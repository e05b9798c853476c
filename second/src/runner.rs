//! The runner: a sheet's bytes in, the run's text out.

use crate::sheet::Sheet;
use crate::table::{Answer, Machine, Outcome};
use crate::watch::{Mistake, Watch};
use std::fmt::Write;

/// What the last line counts, brought up to date by every answer.
#[derive(Default)]
struct Tally {
    yes: u32,
    no: u32,
    fail: u32,
}

impl Tally {
    fn count(&mut self, outcome: &Outcome) {
        match outcome {
            Ok(Answer::ScxYes) => self.yes += 1,
            Ok(Answer::ScxNo) => self.no += 1,
            Ok(Answer::Fail) => self.fail += 1,
            _ => {}
        }
    }
}

/// The text of a run; writing into a string cannot fail.
pub fn run<W: Watch>(bytes: &[u8], watch: &mut W) -> String {
    let mut out = String::new();
    match Sheet::read(bytes, watch) {
        Ok(sheet) => print_run(&sheet, &mut out, watch),
        Err(refusal) => {
            watch.seen_number("sheet refused", usize::from(refusal));
            writeln!(out, "X {refusal}").unwrap();
        }
    }
    out
}

fn print_run<W: Watch>(sheet: &Sheet, out: &mut String, watch: &mut W) {
    let mut machine = Machine::fresh(sheet.p, sheet.records());
    let mut tally = Tally::default();
    for (k, event) in sheet.events().enumerate() {
        let outcome = machine.call(&event, watch);
        tally.count(&outcome);
        if outcome == Ok(Answer::VlxYes) && watch.wrong(Mistake::TallyOfVlx) {
            tally.yes += 1;
        }
        print_event(k + 1, event.task(), &outcome, out);
    }
    for (r, record) in machine.records.iter().enumerate() {
        let [a, b, c, d] = record.cells.map(|cell| cell.value);
        writeln!(out, "R {r} {} {a} {b} {c} {d}", u8::from(record.mark)).unwrap();
    }
    writeln!(out, "T {} {} {}", tally.yes, tally.no, tally.fail).unwrap();
}

fn print_event(k: usize, t: u8, outcome: &Outcome, out: &mut String) {
    match outcome {
        Ok(Answer::Snapshot(cells)) => {
            let [a, b, c, d] = cells.map(|cell| cell.value);
            writeln!(out, "{k} {t} 1 {a} {b} {c} {d}")
        }
        Ok(Answer::Value(value)) => writeln!(out, "{k} {t} 6 {value}"),
        Ok(answer) => writeln!(out, "{k} {t} {}", answer.number()),
        Err(refusal) => writeln!(out, "{k} {t} {refusal}"),
    }
    .unwrap();
}
