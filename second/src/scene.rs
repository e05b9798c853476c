//! Scenes: a change stops at some place, readers of its records stop at others, another change takes a record, and all go on in some order.

use crate::generate::{fit, Maker};
use crate::sheet::Event;

/// Where a change may be left.
const CHANGER: [&str; 9] = ["H1 own", "H2", "H3", "H4", "H5", "H6", "H7", "H8", "idle"];

/// Where a reader of its records may be left.
const READER: [&str; 20] = [
    "L2",
    "L3",
    "L4",
    "L5",
    "L6",
    "L7",
    "L8",
    "L8",
    "L9",
    "L10",
    "L11",
    "H1 helping",
    "H1 helping",
    "H1 helping",
    "H2",
    "H3",
    "H6",
    "H7",
    "H8",
    "idle",
];

impl Maker {
    pub fn scene(&mut self) {
        let mut tasks: Vec<u8> = (0..self.style.p as u8).collect();
        self.shuffle(&mut tasks);
        let mut list: Vec<u8> = (0..self.style.n as u8).filter(|&r| !self.machine.records[usize::from(r)].mark).take(4).collect();
        if list.is_empty() {
            list.push(self.random.below(self.style.n) as u8);
        }
        self.shuffle(&mut list);
        list.truncate(self.random.pick(&[1, 2, 2, 3, 3, 4]));
        let (changer, readers, other) = (tasks[0], &tasks[2..], tasks[1]);
        self.change(changer, &list.clone());
        let stop = self.random.pick(&CHANGER);
        self.until(changer, stop);
        for &reader in readers {
            let r = self.random.pick(&list);
            self.play(Event::Llx { t: reader, r });
            let stop = self.random.pick(&READER);
            self.until(reader, stop);
        }
        if self.random.chance(600) {
            let stop = self.random.pick(&["H6", "H7", "H8", "idle", "idle"]);
            self.until(changer, stop);
        }
        for _ in 0..self.random.from_to(1, 2) {
            let r = self.open_one(&list);
            self.change(other, &[r]);
            self.until(other, "idle");
        }
        self.finish(tasks);
    }

    /// A record of the list that is not closed, if there is one.
    fn open_one(&mut self, list: &[u8]) -> u8 {
        let open: Vec<u8> = list.iter().copied().filter(|&r| !self.machine.records[usize::from(r)].mark).collect();
        self.random.pick(if open.is_empty() { list } else { &open })
    }

    /// A task reads these records and starts an SCX on them, or as much of it as it can.
    fn change(&mut self, t: u8, records: &[u8]) {
        for &r in records {
            self.play(Event::Llx { t, r });
            self.until(t, "idle");
        }
        let (n, list) = fit(records);
        let write = self.write(n);
        self.play(Event::Scx { t, n, list, write });
        // One step, so that a stop at H1 is one after a hold.
        self.play(Event::Step { t });
    }

    /// Steps of a task until it is at this place or idle.
    fn until(&mut self, t: u8, place: &str) {
        for _ in 0..60 {
            let at = self.machine.tasks[usize::from(t)].at.name();
            if at == place || at == "idle" {
                return;
            }
            self.play(Event::Step { t });
        }
    }

    /// All go on, in turns or one after another; now and then one is left where it is.
    fn finish(&mut self, mut tasks: Vec<u8>) {
        self.shuffle(&mut tasks);
        if self.random.chance(100) {
            tasks.pop();
        }
        if self.random.chance(400) {
            for _ in 0..40 {
                let t = self.random.pick(&tasks);
                if self.machine.tasks[usize::from(t)].at.name() != "idle" {
                    self.play(Event::Step { t });
                }
            }
        }
        for &t in &tasks {
            self.until(t, "idle");
        }
    }
}
