//! The calls: starting an operation makes no shared access, and a refused call changes nothing.

use crate::sheet::{Event, Write};
use crate::table::{Answer, Change, Link, Llx, Machine, Outcome, Place, State};
use crate::watch::{Mistake, Watch};

impl Machine {
    /// The call of one event.
    pub fn call<W: Watch>(&mut self, event: &Event, watch: &mut W) -> Outcome {
        let outcome = match *event {
            Event::Llx { t, r } => self.start_llx(t, r),
            Event::Scx { t, n, list, write } => self.start_scx(t, n, list, write, watch),
            Event::Vlx { t, n, list } => self.start_vlx(t, n, list, watch),
            Event::Read { t, r, field } => self.start_read(t, r, field),
            Event::Step { t } => self.step(t, watch),
        };
        match outcome {
            Ok(answer) => watch.seen_number("answer", usize::from(answer.number())),
            Err(refusal) => watch.seen_number(refused(event), usize::from(refusal)),
        }
        if outcome.is_err() && watch.wrong(Mistake::RefusedDrops) {
            self.drop_named(event);
        }
        outcome
    }

    fn start_llx(&mut self, t: u8, r: u8) -> Outcome {
        self.check_idle(t)?;
        self.check_records(&[r])?;
        self.drop_links(t, &[r]);
        self.begin(t, Place::Llx { r, at: Llx::L1 })
    }

    fn start_read(&mut self, t: u8, r: u8, field: u8) -> Outcome {
        self.check_idle(t)?;
        self.check_records(&[r])?;
        if field > 3 {
            return Err(17);
        }
        self.begin(t, Place::Read { r, field })
    }

    fn start_vlx<W: Watch>(&mut self, t: u8, n: u8, list: [u8; 4], watch: &mut W) -> Outcome {
        self.check_idle(t)?;
        let records = first(n, &list, watch)?;
        self.check_records(records)?;
        check_repeats(records)?;
        self.check_links(t, records)?;
        self.begin(t, Place::Vlx { n, list, i: 0 })
    }

    fn start_scx<W: Watch>(&mut self, t: u8, n: u8, list: [u8; 4], write: Write, watch: &mut W) -> Outcome {
        self.check_idle(t)?;
        let records = first(n, &list, watch)?;
        self.check_records(records)?;
        check_repeats(records)?;
        check_write(n, write, watch)?;
        self.check_links(t, records)?;
        if self.changes.len() > Machine::CHANGES {
            return Err(19);
        }
        let u = self.changes.len() as u8;
        let change = self.fill(t, n, list, write);
        self.changes.push(change);
        if !watch.wrong(Mistake::ScxKeeps) {
            self.drop_links(t, records);
        }
        self.begin(t, Place::own_change(u))
    }

    /// A change filled from the task's links.
    fn fill(&self, t: u8, n: u8, list: [u8; 4], write: Write) -> Change {
        let mut infos = [0; 4];
        for i in 0..usize::from(n) {
            infos[i] = self.link(t, list[i]).map_or(0, |link| link.info);
        }
        let seen = self.link(t, list[usize::from(write.place)]);
        Change {
            n,
            list,
            infos,
            closes: write.closes,
            place: write.place,
            field: write.field,
            new: write.new,
            old: seen.map_or(Default::default(), |link| link.cells[usize::from(write.field)]),
            state: State::InProgress,
            all_frozen: false,
        }
    }

    pub fn link(&self, t: u8, r: u8) -> Option<&Link> {
        self.tasks[usize::from(t)].links[usize::from(r)].as_ref()
    }

    fn begin(&mut self, t: u8, at: Place) -> Outcome {
        self.task(t).at = at;
        Ok(Answer::Accepted)
    }

    fn check_idle(&self, t: u8) -> Result<(), u8> {
        match self.tasks.get(usize::from(t)) {
            None => Err(11),
            Some(task) if !matches!(task.at, Place::Idle) => Err(12),
            Some(_) => Ok(()),
        }
    }

    fn check_records(&self, records: &[u8]) -> Result<(), u8> {
        let known = |&r: &u8| usize::from(r) < self.records.len();
        if records.iter().all(known) {
            Ok(())
        } else {
            Err(15)
        }
    }

    fn check_links(&self, t: u8, records: &[u8]) -> Result<(), u8> {
        let linked = |&r: &u8| self.link(t, r).is_some();
        if records.iter().all(linked) {
            Ok(())
        } else {
            Err(18)
        }
    }

    /// A mistake made on purpose: the links to the records that a refused call names are dropped.
    fn drop_named(&mut self, event: &Event) {
        let list = match *event {
            Event::Llx { r, .. } | Event::Read { r, .. } => [r; 4],
            Event::Scx { list, .. } | Event::Vlx { list, .. } => list,
            Event::Step { .. } => return,
        };
        let known = list.iter().copied().filter(|&r| usize::from(r) < self.records.len());
        let known: Vec<u8> = known.collect();
        if usize::from(event.task()) < self.tasks.len() {
            self.drop_links(event.task(), &known);
        }
    }
}

/// The list's first n records.
fn first<'a, W: Watch>(n: u8, list: &'a [u8; 4], watch: &mut W) -> Result<&'a [u8], u8> {
    let n = usize::from(n);
    if n == 0 || n > Machine::LIST {
        watch.seen(if n == 0 { "14: n 0" } else { "14: n above 4" });
        return Err(14);
    }
    Ok(&list[..n])
}

fn check_repeats(records: &[u8]) -> Result<(), u8> {
    let repeated = |i: usize| records[..i].contains(&records[i]);
    if (0..records.len()).any(repeated) {
        Err(16)
    } else {
        Ok(())
    }
}

fn check_write<W: Watch>(n: u8, write: Write, watch: &mut W) -> Result<(), u8> {
    let wrong = if write.place >= n {
        "17: written place"
    } else if write.closes >> n != 0 {
        "17: place of R"
    } else if write.field > 3 {
        "17: field"
    } else {
        return Ok(());
    };
    watch.seen(wrong);
    Err(17)
}

fn refused(event: &Event) -> &'static str {
    match event {
        Event::Llx { .. } => "LLX refused",
        Event::Scx { .. } => "SCX refused",
        Event::Vlx { .. } => "VLX refused",
        Event::Read { .. } => "READ refused",
        Event::Step { .. } => "STEP refused",
    }
}
