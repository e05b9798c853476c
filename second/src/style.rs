//! The styles of a generated sheet: how many tasks and records, how often tasks switch, rest, stop, close and are refused.

use crate::random::Random;

/// Chances are in thousandths for each event.
#[derive(Clone, Debug)]
pub struct Style {
    pub p: usize,
    pub n: usize,
    pub events: usize,
    /// The records that most operations are about: the fewer, the more conflicts.
    pub hot: usize,
    /// The longest list of an SCX.
    pub list: usize,
    /// The fields that are mostly written.
    pub fields: usize,
    /// New values lie mostly below this: the fewer, the more often a value comes back.
    pub values: usize,
    pub close: usize,
    /// A call that is to be refused.
    pub spoil: usize,
    /// The same task goes on.
    pub stay: usize,
    pub nap: usize,
    pub nap_length: usize,
    /// A task stops for good.
    pub stop: usize,
    /// Tasks rest when they come to these places, so that others overtake them there.
    pub traps: Vec<&'static str>,
    pub heading: usize,
    /// The events are those of scenes.
    pub scenes: bool,
}

/// The places where being overtaken matters.
const TRAPS: [&str; 19] =
    ["L2", "L3", "L4", "L5", "L6", "L7", "L8", "L9", "L10", "L11", "H1 own", "H1 helping", "H2", "H3", "H4", "H5", "H6", "H7", "H8"];

const DEEP_TRAPS: [&str; 8] = ["L8", "L11", "H1 own", "H1 helping", "H2", "H6", "H7", "H8"];

impl Style {
    /// The style of the valid sheet k.
    pub fn of(k: u64, random: &mut Random) -> Style {
        let mut style = Style::small(random);
        match k % 80 {
            0 => style.events = random.from_to(4000, 5000),
            20 => style.rush(random),
            40 => style.events = 5000,
            60 => style.wide(random),
            k if k % 8 == 1 => style.deep(random),
            k if k % 8 == 5 => style.scenes(random),
            _ => {}
        }
        match random.below(60) {
            0 => style.events = 0,
            1 => style.heading = usize::MAX,
            2..=9 => style.heading = random.from_to(1, 60),
            _ => {}
        }
        style
    }

    fn small(random: &mut Random) -> Style {
        let n = if random.chance(800) { random.from_to(1, 4) } else { random.from_to(1, 32) };
        Style {
            p: if random.chance(800) { random.from_to(2, 4) } else { random.from_to(1, 8) },
            n,
            events: random.from_to(20, 500),
            hot: n.min(random.from_to(1, 4)),
            list: random.from_to(1, 4),
            fields: random.from_to(1, 4),
            values: random.pick(&[1, 2, 3, 10, 65_536]),
            close: random.pick(if n > 2 { &[0, 50, 200, 500] } else { &[0, 20, 50, 200] }),
            spoil: random.pick(&[0, 10, 30, 100]),
            stay: random.pick(&[0, 300, 700, 900]),
            nap: random.pick(&[0, 20, 60, 150]),
            nap_length: random.pick(&[5, 20, 60, 150]),
            stop: random.pick(&[0, 0, 2, 6]),
            traps: (0..random.below(4)).map(|_| random.pick(&TRAPS)).collect(),
            heading: 0,
            scenes: false,
        }
    }

    /// One or two tasks that make change after change, so that all 255 numbers are used.
    fn rush(&mut self, random: &mut Random) {
        (self.p, self.n, self.hot, self.list) = (random.from_to(1, 2), random.from_to(1, 2), 1, 1);
        (self.close, self.nap, self.stop, self.spoil, self.stay, self.events) = (0, 0, 0, 5, 950, 5000);
        self.traps.clear();
    }

    /// Long lists, records closed in part, and tasks that rest in the midst of helping while others go on for long.
    fn deep(&mut self, random: &mut Random) {
        (self.p, self.n, self.hot, self.list) = (random.from_to(3, 5), random.from_to(3, 12), random.from_to(2, 3), random.from_to(2, 3));
        (self.close, self.spoil, self.stop, self.events) = (random.pick(&[0, 300, 700]), 5, 0, random.from_to(200, 800));
        (self.stay, self.nap, self.nap_length) = (random.pick(&[800, 950]), random.pick(&[10, 50, 100]), random.pick(&[60, 150]));
        self.traps = (0..3).map(|_| random.pick(&DEEP_TRAPS)).collect();
    }

    /// Scenes over records that are closed one after another.
    fn scenes(&mut self, random: &mut Random) {
        (self.p, self.n, self.values) = (random.from_to(3, 5), random.from_to(2, 12), random.pick(&[1, 2, 3]));
        (self.close, self.events, self.scenes) = (random.pick(&[0, 500, 900]), random.from_to(100, 800), true);
    }

    /// As many tasks and records as there may be.
    fn wide(&mut self, random: &mut Random) {
        (self.p, self.n, self.hot, self.list) = (8, 32, random.from_to(4, 32), 4);
    }
}
