//! STEP: one shared access of a task, and the places of LLX, VLX and READ.

use crate::table::{Answer, Cell, Help, Job, Link, Llx, Machine, Outcome, Place, State, Whose};
use crate::watch::{Mistake, Watch};

/// What follows an access: another place, or the operation's answer.
pub enum Then {
    Go(Place),
    End(Answer),
}

use Then::{End, Go};

impl Place {
    pub fn own_change(u: u8) -> Place {
        Place::help(u, Whose::Own)
    }

    fn help(u: u8, whose: Whose) -> Place {
        Place::Help { job: Job { u, whose }, at: Help::H1 { i: 0 } }
    }
}

/// The one of three names that goes with a state.
pub fn by_state(state: State, names: [&'static str; 3]) -> &'static str {
    match state {
        State::InProgress => names[0],
        State::Committed => names[1],
        State::Aborted => names[2],
    }
}

impl Machine {
    /// One access of task t; an operation answers on its last.
    pub fn step<W: Watch>(&mut self, t: u8, watch: &mut W) -> Outcome {
        let task = self.tasks.get(usize::from(t)).ok_or(11)?;
        let then = match task.at {
            Place::Idle => return Err(13),
            Place::Llx { r, at } => self.step_llx(t, r, at, watch),
            Place::Help { job, at } => self.step_help(job, at, watch),
            Place::Vlx { n, list, i } => self.step_vlx(t, n, list, i, watch),
            Place::Read { r, field } => {
                watch.seen("READ");
                End(Answer::Value(self.record(r).cells[usize::from(field)].value))
            }
        };
        let (at, answer) = match then {
            Go(at) => (at, Answer::Accepted),
            End(answer) => (Place::Idle, answer),
        };
        self.task(t).at = at;
        Ok(answer)
    }

    fn step_llx<W: Watch>(&mut self, t: u8, r: u8, at: Llx, watch: &mut W) -> Then {
        let next = match at {
            Llx::L1 => {
                let m1 = self.record(r).mark;
                watch.seen(if m1 { "L1: mark yes" } else { "L1: mark no" });
                Llx::L2 { m1 }
            }
            Llx::L2 { m1 } => {
                watch.seen("L2");
                Llx::L3 { m1, a: self.info(r) }
            }
            Llx::L3 { m1, a } => {
                let was = self.state(a);
                watch.seen(by_state(was, ["L3: InProgress", "L3: Committed", "L3: Aborted"]));
                Llx::L4 { m1, a, was }
            }
            Llx::L4 { m1, a, was } => self.at_l4(r, m1, a, was, watch),
            Llx::L5 { m1, a, i, cells } => self.at_l5(r, m1, a, i, cells, watch),
            Llx::L6 { m1, a, cells } => return self.at_l6(t, r, m1, a, cells, watch),
            Llx::L7 { m1, a } => return self.at_l7(r, m1, a, watch),
            Llx::L8 { m1, a } => return self.at_l8(r, m1, a, watch),
            Llx::L9 => {
                watch.seen(if self.info(r) == 0 { "L9: b is 0" } else { "L9" });
                Llx::L10 { b: self.info(r) }
            }
            Llx::L10 { b } => {
                let state = self.state(b);
                watch.seen(by_state(state, ["L10: InProgress", "L10: Committed", "L10: Aborted"]));
                if state != State::InProgress {
                    return End(Answer::Fail);
                }
                Llx::L11
            }
            Llx::L11 => return self.at_l11(r, watch),
        };
        Go(Place::Llx { r, at: next })
    }

    fn at_l4<W: Watch>(&mut self, r: u8, m1: bool, a: u8, was: State, watch: &mut W) -> Llx {
        let m2 = self.record(r).mark;
        let open = Llx::L5 { m1, a, i: 0, cells: [Cell::default(); 4] };
        let (name, next) = match (was, m2) {
            (State::Aborted, _) => ("L4: to L5 by Aborted", open),
            (State::Committed, false) => ("L4: to L5 by Committed with m2 no", open),
            (State::Committed, true) => ("L4: to L7 by Committed with m2 yes", Llx::L7 { m1, a }),
            (State::InProgress, _) => ("L4: to L7 by InProgress", Llx::L7 { m1, a }),
        };
        watch.seen(name);
        if m1 && matches!(next, Llx::L5 { .. }) {
            watch.seen("L4: to L5 with m1");
        }
        next
    }

    fn at_l5<W: Watch>(&mut self, r: u8, m1: bool, a: u8, i: u8, mut cells: [Cell; 4], watch: &mut W) -> Llx {
        cells[usize::from(i)] = self.record(r).cells[usize::from(i)];
        watch.seen_number("L5: cell", usize::from(i));
        if i < 3 {
            Llx::L5 { m1, a, i: i + 1, cells }
        } else {
            Llx::L6 { m1, a, cells }
        }
    }

    fn at_l6<W: Watch>(&mut self, t: u8, r: u8, m1: bool, a: u8, cells: [Cell; 4], watch: &mut W) -> Then {
        let same = if watch.wrong(Mistake::CellsAtL6) { self.record(r).cells == cells } else { self.info(r) == a };
        watch.seen(if same { "L6: same" } else { "L6: differs" });
        if !same {
            return Go(Place::Llx { r, at: Llx::L7 { m1, a } });
        }
        self.task(t).links[usize::from(r)] = Some(Link { info: a, cells });
        End(Answer::Snapshot(cells))
    }

    fn at_l7<W: Watch>(&mut self, r: u8, m1: bool, a: u8, watch: &mut W) -> Then {
        let (name, next) = match (self.state(a), m1) {
            (State::Committed, true) => {
                watch.seen("L7: Committed with m1");
                return End(Answer::Finalized);
            }
            (State::Committed, false) => ("L7: Committed without m1", Llx::L9),
            (State::InProgress, _) => ("L7: InProgress", Llx::L8 { m1, a }),
            (State::Aborted, _) => ("L7: Aborted", Llx::L8 { m1, a }),
        };
        watch.seen(name);
        Go(Place::Llx { r, at: next })
    }

    fn at_l8<W: Watch>(&mut self, r: u8, m1: bool, a: u8, watch: &mut W) -> Then {
        let state = self.state(a);
        watch.seen(if m1 {
            by_state(state, ["L8: InProgress with m1", "L8: Committed with m1", "L8: Aborted with m1"])
        } else {
            by_state(state, ["L8: InProgress without m1", "L8: Committed without m1", "L8: Aborted without m1"])
        });
        if state == State::Committed && m1 && watch.wrong(Mistake::FinalizedAtL8) {
            return End(Answer::Finalized);
        }
        let help = state == State::InProgress && (m1 || !watch.wrong(Mistake::MarkBeforeHelp));
        Go(if help { Place::help(a, Whose::AtL8 { r, m1 }) } else { Place::Llx { r, at: Llx::L9 } })
    }

    fn at_l11<W: Watch>(&mut self, r: u8, watch: &mut W) -> Then {
        let c = self.info(r);
        if c == 0 {
            watch.seen("L11: c is 0");
            return End(Answer::Fail);
        }
        let state = self.state(c);
        watch.seen(by_state(state, ["L11: helps InProgress", "L11: helps Committed", "L11: helps Aborted"]));
        if state != State::InProgress && watch.wrong(Mistake::IdleL11) {
            return End(Answer::Fail);
        }
        Go(Place::help(c, Whose::AtL11))
    }

    fn step_vlx<W: Watch>(&mut self, t: u8, n: u8, list: [u8; 4], i: u8, watch: &mut W) -> Then {
        let r = list[usize::from(i)];
        let same = self.link(t, r).is_some_and(|link| link.info == self.info(r));
        if !same {
            watch.seen(if i == 0 { "VLX: differs at the first" } else { "VLX: differs later" });
            if !watch.wrong(Mistake::VlxKeeps) {
                self.drop_links(t, &list[..usize::from(n)]);
            }
            return End(Answer::VlxNo);
        }
        let last = i + 1 == n;
        watch.seen(if last { "VLX: last, yes" } else { "VLX: goes on" });
        if last {
            End(Answer::VlxYes)
        } else {
            Go(Place::Vlx { n, list, i: i + 1 })
        }
    }
}
