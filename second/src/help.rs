//! Helping a change, H1 to H8, and what its verdict leads to.

use crate::step::{by_state, Then};
use crate::table::{Answer, Help, Job, Llx, Machine, Place, State, Whose};
use crate::watch::{Mistake, Watch};
use Then::{End, Go};

impl Machine {
    pub fn step_help<W: Watch>(&mut self, job: Job, at: Help, watch: &mut W) -> Then {
        let next = match at {
            Help::H1 { i } => self.at_h1(job, i, watch),
            Help::H2 { i } => self.at_h2(job, i, watch),
            Help::H3 => {
                let frozen = self.change(job.u).all_frozen;
                watch.seen(if frozen { "H3: yes" } else { "H3: no" });
                if frozen && !watch.wrong(Mistake::NoAtH3) {
                    return verdict(job, true, "H3", watch);
                }
                Help::H4
            }
            Help::H4 => {
                let names = ["H4: was InProgress", "H4: was Committed", "H4: was Aborted"];
                watch.seen(by_state(self.state(job.u), names));
                self.change(job.u).state = State::Aborted;
                return verdict(job, false, "H4", watch);
            }
            Help::H5 => self.at_h5(job, watch),
            Help::H6 { i } => self.at_h6(job, i, watch),
            Help::H7 => self.at_h7(job, watch),
            Help::H8 => {
                let names = ["H8: was InProgress", "H8: was Committed", "H8: was Aborted"];
                watch.seen(by_state(self.state(job.u), names));
                self.change(job.u).state = State::Committed;
                return verdict(job, true, "H8", watch);
            }
        };
        Go(Place::Help { job, at: next })
    }

    fn at_h1<W: Watch>(&mut self, job: Job, i: u8, watch: &mut W) -> Help {
        let change = &self.changes[usize::from(job.u)];
        let (r, stored, n) = (change.list[usize::from(i)], change.infos[usize::from(i)], change.n);
        if self.info(r) != stored {
            watch.seen("H1: did not take hold");
            return Help::H2 { i };
        }
        self.record(r).info = job.u;
        if self.state(job.u) != State::InProgress {
            watch.seen("H1: took hold for an ended change");
        }
        let own = matches!(job.whose, Whose::Own);
        watch.seen(if own { "H1: took hold, own" } else { "H1: took hold, helping" });
        next_hold(i, n, watch)
    }

    fn at_h2<W: Watch>(&mut self, job: Job, i: u8, watch: &mut W) -> Help {
        let change = &self.changes[usize::from(job.u)];
        let held = self.info(change.list[usize::from(i)]) == job.u;
        watch.seen(if held { "H2: is U" } else { "H2: is not U" });
        if held {
            next_hold(i, change.n, watch)
        } else {
            Help::H3
        }
    }

    fn at_h5<W: Watch>(&mut self, job: Job, watch: &mut W) -> Help {
        let change = self.change(job.u);
        watch.seen(if change.all_frozen { "H5: was set" } else { "H5: sets" });
        change.all_frozen = true;
        if change.state == State::Aborted {
            watch.seen("H5: after Aborted");
        }
        match next_mark(change.closes, 0) {
            Some(i) if !watch.wrong(Mistake::MarksAfterH7) => {
                watch.seen("H5: to H6");
                Help::H6 { i }
            }
            _ => {
                watch.seen("H5: to H7");
                Help::H7
            }
        }
    }

    fn at_h6<W: Watch>(&mut self, job: Job, i: u8, watch: &mut W) -> Help {
        let change = &self.changes[usize::from(job.u)];
        let (r, next) = (change.list[usize::from(i)], next_mark(change.closes, i + 1));
        let ended = change.state != State::InProgress;
        watch.seen(match (self.record(r).mark, ended) {
            (true, _) => "H6: was marked",
            (false, false) => "H6: marks",
            (false, true) => "H6: marks for an ended change",
        });
        self.record(r).mark = true;
        watch.seen(if next.is_some() { "H6: more" } else { "H6: last" });
        match next {
            Some(i) => Help::H6 { i },
            None if watch.wrong(Mistake::MarksAfterH7) => Help::H8,
            None => Help::H7,
        }
    }

    fn at_h7<W: Watch>(&mut self, job: Job, watch: &mut W) -> Help {
        let change = &self.changes[usize::from(job.u)];
        let r = change.list[usize::from(change.place)];
        let cell = &mut self.records[usize::from(r)].cells[usize::from(change.field)];
        let same = *cell == change.old || (watch.wrong(Mistake::ValuesAtH7) && cell.value == change.old.value);
        if same {
            cell.value = change.new;
            cell.stamp = job.u;
            watch.seen(by_state(change.state, ["H7: wrote", "H7: wrote after Committed", "H7: wrote after Aborted"]));
        } else if cell.stamp == job.u {
            watch.seen("H7: did not write, U's own value");
        } else {
            watch.seen("H7: did not write, a later value");
        }
        match next_mark(change.closes, 0) {
            Some(i) if watch.wrong(Mistake::MarksAfterH7) => Help::H6 { i },
            _ => Help::H8,
        }
    }
}

/// The place after i is next to be held; after the last comes H5.
fn next_hold<W: Watch>(i: u8, n: u8, watch: &mut W) -> Help {
    watch.seen(if i + 1 < n { "list: goes on" } else { "list: done" });
    if i + 1 < n {
        Help::H1 { i: i + 1 }
    } else {
        Help::H5
    }
}

/// The first place of R from i on.
fn next_mark(closes: u8, i: u8) -> Option<u8> {
    (i..4).find(|&i| closes >> i & 1 == 1)
}

fn verdict<W: Watch>(job: Job, yes: bool, from: &'static str, watch: &mut W) -> Then {
    watch.seen(verdict_name(job, yes, from));
    match job.whose {
        Whose::Own if yes => End(Answer::ScxYes),
        Whose::Own => End(Answer::ScxNo),
        Whose::AtL8 { m1: true, .. } if yes => End(Answer::Finalized),
        Whose::AtL8 { r, .. } => Go(Place::Llx { r, at: Llx::L9 }),
        Whose::AtL11 => End(Answer::Fail),
    }
}

fn verdict_name(job: Job, yes: bool, from: &'static str) -> &'static str {
    match (job.whose, yes, from) {
        (Whose::Own, true, "H3") => "own: yes by H3",
        (Whose::Own, true, _) => "own: yes by H8",
        (Whose::Own, false, _) => "own: no",
        (Whose::AtL8 { m1: true, .. }, true, "H3") => "at L8: yes by H3 with m1",
        (Whose::AtL8 { m1: true, .. }, true, _) => "at L8: yes by H8 with m1",
        (Whose::AtL8 { m1: false, .. }, true, "H3") => "at L8: yes by H3 without m1",
        (Whose::AtL8 { m1: false, .. }, true, _) => "at L8: yes by H8 without m1",
        (Whose::AtL8 { m1: true, .. }, false, _) => "at L8: no with m1",
        (Whose::AtL8 { m1: false, .. }, false, _) => "at L8: no without m1",
        (Whose::AtL11, true, "H3") => "at L11: yes by H3",
        (Whose::AtL11, true, _) => "at L11: yes by H8",
        (Whose::AtL11, false, _) => "at L11: no",
    }
}
