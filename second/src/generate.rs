//! The generator: sheet k of seed s. It runs the machine along, so that most of its calls are accepted and get in each other's way.

use crate::damage;
use crate::random::Random;
use crate::sheet::{Bytes, Draft, Event, Write, MOST_BYTES};
use crate::style::Style;
use crate::table::{Machine, Place, State};
use crate::watch::Nobody;

/// Every fourth sheet is damaged.
pub fn sheet(seed: u64, k: u64) -> Vec<u8> {
    let mut random = Random::of(seed, k);
    if k % 4 == 3 {
        return damage::damaged(k / 4, &mut random);
    }
    let style = Style::of(k, &mut random);
    valid(style, random).bytes()
}

/// A sheet of this style.
pub fn valid(style: Style, mut random: Random) -> Draft {
    let value = |random: &mut Random| if random.chance(50) { 65_535 } else { random.below(style.values) as u16 };
    let values: Vec<[u16; 4]> = (0..style.n).map(|_| [0; 4].map(|_: u16| value(&mut random))).collect();
    let machine = Machine::fresh(style.p as u8, values.iter().copied());
    let rests = vec![0; style.p];
    let before = vec![(0, [0; 4]); style.p];
    let mut maker = Maker { style, random, machine, rests, last: 0, before, events: Vec::new() };
    while maker.events.len() < maker.style.events {
        if maker.style.scenes {
            maker.scene()
        } else {
            maker.turn()
        }
    }
    maker.events.truncate(maker.style.events);
    let mut draft = Draft { heading: Vec::new(), p: maker.style.p as u8, values, events: maker.events };
    let room = MOST_BYTES - draft.bytes().len();
    let heading = maker.style.heading.min(room);
    draft.heading = (0..heading).map(|_| maker.random.byte()).collect();
    draft
}

/// A sheet in the making.
pub struct Maker {
    pub style: Style,
    pub random: Random,
    pub machine: Machine,
    /// For each task, the event up to which it rests.
    rests: Vec<usize>,
    /// The task of the event before.
    last: usize,
    /// For each task, the list that it named before, with its length.
    before: Vec<(u8, [u8; 4])>,
    pub events: Vec<Bytes>,
}

impl Maker {
    /// Adds an event, which the machine makes too.
    pub fn play(&mut self, event: Event) {
        let _ = self.machine.call(&event, &mut Nobody);
        self.events.push(event.bytes());
    }

    /// One event of some task.
    fn turn(&mut self) {
        let now = self.events.len();
        let t = self.task(now);
        let event = if self.random.chance(self.style.spoil) {
            self.spoiled(t as u8)
        } else if !matches!(self.machine.tasks[t].at, Place::Idle) {
            Event::Step { t: t as u8 }
        } else {
            self.start(t as u8)
        };
        self.play(event);
        self.rest(t, now);
    }

    /// A task that does not rest, if there is one.
    fn task(&mut self, now: usize) -> usize {
        let awake: Vec<usize> = (0..self.style.p).filter(|&t| self.rests[t] <= now).collect();
        if awake.contains(&self.last) && self.random.chance(self.style.stay) {
            return self.last;
        }
        self.last = if awake.is_empty() { self.random.below(self.style.p) } else { self.random.pick(&awake) };
        self.last
    }

    /// Lets the task rest or stop now and then, more so at the style's trap.
    fn rest(&mut self, t: usize, now: usize) {
        let trapped = self.style.traps.contains(&self.machine.tasks[t].at.name());
        let length = 1 + self.random.below(self.style.nap_length);
        if self.random.chance(self.style.stop) {
            self.rests[t] = usize::MAX;
        } else if trapped && self.random.chance(600) {
            self.rests[t] = now + 10 + length;
        } else if self.random.chance(self.style.nap) {
            self.rests[t] = now + length;
        }
    }

    /// What an idle task does next.
    fn start(&mut self, t: u8) -> Event {
        let mut linked: Vec<u8> = (0..self.style.n as u8).filter(|&r| self.machine.link(t, r).is_some()).collect();
        self.shuffle(&mut linked);
        if self.random.chance(40) {
            return Event::Read { t, r: self.hot(), field: self.random.below(4) as u8 };
        }
        let (n, list) = self.before[usize::from(t)];
        if n > 0 && self.random.chance(40) {
            // Its links stand if a VLX answered yes, and are gone if it answered no or was an SCX.
            return Event::Scx { t, n, list, write: self.write(n) };
        }
        if linked.is_empty() || (linked.len() < self.style.list.min(self.style.hot) && self.random.chance(850)) {
            return Event::Llx { t, r: self.unlinked(t) };
        }
        let longest = linked.len().min(self.style.list);
        let n = self.random.from_to(1, longest).max(self.random.from_to(1, longest));
        let (n, list) = fit(&linked[..n]);
        self.before[usize::from(t)] = (n, list);
        match self.random.below(100) {
            0..=14 => Event::Vlx { t, n, list },
            15..=89 => Event::Scx { t, n, list, write: self.write(n) },
            _ => Event::Llx { t, r: self.hot() },
        }
    }

    pub fn shuffle(&mut self, all: &mut [u8]) {
        for i in (1..all.len()).rev() {
            let other = self.random.below(i + 1);
            all.swap(i, other);
        }
    }

    /// A record: one that is held just now, one of the first open ones, or any.
    fn hot(&mut self) -> u8 {
        let machine = &self.machine;
        let all = 0..self.style.n as u8;
        let held = all.clone().filter(|&r| machine.state(machine.info(r)) == State::InProgress);
        let open = all.clone().filter(|&r| !machine.records[usize::from(r)].mark).take(self.style.hot);
        let among: Vec<u8> = match self.random.below(100) {
            0..=24 => held.collect(),
            25..=92 => open.collect(),
            _ => all.collect(),
        };
        if among.is_empty() {
            self.random.below(self.style.n) as u8
        } else {
            self.random.pick(&among)
        }
    }

    /// Such a record, mostly one that the task has no link to.
    fn unlinked(&mut self, t: u8) -> u8 {
        let tries = [self.hot(), self.hot(), self.hot()];
        tries.into_iter().find(|&r| self.machine.link(t, r).is_none()).unwrap_or(tries[0])
    }

    pub fn write(&mut self, n: u8) -> Write {
        let any = self.random.chance(30);
        Write {
            closes: if self.random.chance(self.style.close) { self.random.byte() & ((1 << n) - 1) } else { 0 },
            place: self.random.below(n.into()) as u8,
            field: self.random.below(if any { 4 } else { self.style.fields }) as u8,
            new: self.random.below(if any { 65_536 } else { self.style.values }) as u16,
        }
    }

    /// A call that is refused, or nearly.
    fn spoiled(&mut self, t: u8) -> Event {
        let (p, n) = (self.style.p, self.style.n);
        let t = if self.random.chance(120) { self.random.from_to(p, 255) as u8 } else { t };
        let beyond = self.random.from_to(n, 255) as u8;
        match self.random.below(12) {
            0 => Event::Step { t },
            1 => Event::Llx { t, r: self.hot() },
            2 => Event::Llx { t, r: beyond },
            3 => Event::Read { t, r: beyond, field: self.random.below(5) as u8 },
            4 => Event::Read { t, r: self.hot(), field: self.random.from_to(4, 255) as u8 },
            _ => self.spoiled_list(t, beyond),
        }
    }

    /// A VLX or SCX with something wrong in its list or in what it writes.
    fn spoiled_list(&mut self, t: u8, beyond: u8) -> Event {
        let mut records: Vec<u8> = (0..self.style.n as u8).collect();
        self.shuffle(&mut records);
        records.truncate(self.random.from_to(1, 4));
        let (mut n, mut list) = fit(&records);
        let mut write = self.write(n);
        let i = self.random.below(n.into());
        match self.random.below(9) {
            0 => (n, list) = (0, [0; 4]),
            1 => (n, list) = (self.random.from_to(5, 255) as u8, [0; 4].map(|_: u8| self.random.byte())),
            2 => list[i] = beyond,
            3 => list[i] = list[0],
            4 => write.place = self.random.from_to(n.into(), 255) as u8,
            5 => write.closes |= 1 << self.random.from_to(n.into(), 7),
            6 => write.field = self.random.from_to(4, 255) as u8,
            7 => {
                let any: Vec<u8> = (0..n).map(|_| self.random.below(self.style.n + 1) as u8).collect();
                (n, list) = fit(&any);
                write =
                    Write { closes: self.random.byte() & 31, place: self.random.below(5) as u8, field: self.random.below(5) as u8, new: 1 };
            }
            _ => {}
        }
        if self.random.chance(600) {
            Event::Scx { t, n, list, write }
        } else {
            Event::Vlx { t, n, list }
        }
    }
}

/// Records as a list of a sheet.
pub fn fit(records: &[u8]) -> (u8, [u8; 4]) {
    let mut list = [0; 4];
    list[..records.len()].copy_from_slice(records);
    (records.len() as u8, list)
}
