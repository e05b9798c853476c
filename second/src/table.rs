//! What the table holds: cells, records, changes, links and tasks, and the limits of the machine.

/// A value with its stamp: the number of the change that wrote it, 0 for the initial value.
#[derive(Clone, Copy, Debug, Default, PartialEq, Eq)]
pub struct Cell {
    pub value: u16,
    pub stamp: u8,
}

pub type Cells = [Cell; 4];

#[derive(Clone, Debug)]
pub struct Record {
    pub cells: Cells,
    pub mark: bool,
    pub info: u8,
}

#[derive(Clone, Copy, Debug, PartialEq, Eq)]
pub enum State {
    InProgress,
    Committed,
    Aborted,
}

/// An SCX-record; only the first n entries of `list` and `infos` mean anything.
#[derive(Clone, Debug)]
pub struct Change {
    pub n: u8,
    pub list: [u8; 4],
    /// The infos that the linked reads saw, place by place.
    pub infos: [u8; 4],
    /// The set R: bit i for place i.
    pub closes: u8,
    pub place: u8,
    pub field: u8,
    pub new: u16,
    pub old: Cell,
    pub state: State,
    pub all_frozen: bool,
}

impl Change {
    /// Number 0: it names no record and is always Aborted.
    const DUMMY: Change = Change {
        n: 0,
        list: [0; 4],
        infos: [0; 4],
        closes: 0,
        place: 0,
        field: 0,
        new: 0,
        old: Cell { value: 0, stamp: 0 },
        state: State::Aborted,
        all_frozen: false,
    };
}

/// What a task's LLX of a record returned.
#[derive(Clone, Copy, Debug)]
pub struct Link {
    pub info: u8,
    pub cells: Cells,
}

#[derive(Clone, Copy, Debug)]
pub enum Place {
    Idle,
    Llx { r: u8, at: Llx },
    Help { job: Job, at: Help },
    Vlx { n: u8, list: [u8; 4], i: u8 },
    Read { r: u8, field: u8 },
}

/// A place in an LLX; `m1` is the mark read at L1, `a` and `b` the infos read at L2 and L9.
#[derive(Clone, Copy, Debug)]
pub enum Llx {
    L1,
    L2 { m1: bool },
    L3 { m1: bool, a: u8 },
    L4 { m1: bool, a: u8, was: State },
    L5 { m1: bool, a: u8, i: u8, cells: Cells },
    L6 { m1: bool, a: u8, cells: Cells },
    L7 { m1: bool, a: u8 },
    L8 { m1: bool, a: u8 },
    L9,
    L10 { b: u8 },
    L11,
}

/// A place in the helping of a change.
#[derive(Clone, Copy, Debug)]
pub enum Help {
    H1 { i: u8 },
    H2 { i: u8 },
    H3,
    H4,
    H5,
    H6 { i: u8 },
    H7,
    H8,
}

/// The change being helped, and what its verdict is wanted for.
#[derive(Clone, Copy, Debug)]
pub struct Job {
    pub u: u8,
    pub whose: Whose,
}

#[derive(Clone, Copy, Debug)]
pub enum Whose {
    Own,
    AtL8 { r: u8, m1: bool },
    AtL11,
}

#[derive(Clone, Debug)]
pub struct Task {
    pub at: Place,
    pub links: [Option<Link>; Machine::RECORDS],
}

#[derive(Clone, Copy, Debug, PartialEq, Eq)]
pub enum Answer {
    Accepted,
    Snapshot(Cells),
    Finalized,
    Fail,
    ScxYes,
    ScxNo,
    VlxYes,
    VlxNo,
    Value(u16),
}

impl Answer {
    /// The number of document 01's table.
    pub fn number(&self) -> u8 {
        match self {
            Answer::Accepted => 0,
            Answer::Snapshot(_) => 1,
            Answer::Finalized => 2,
            Answer::Fail => 3,
            Answer::ScxYes | Answer::VlxYes => 4,
            Answer::ScxNo | Answer::VlxNo => 5,
            Answer::Value(_) => 6,
        }
    }
}

/// An answer, or the number of a refusal.
pub type Outcome = Result<Answer, u8>;

#[derive(Clone, Debug)]
pub struct Machine {
    pub records: Vec<Record>,
    pub tasks: Vec<Task>,
    /// By number, the dummy first.
    pub changes: Vec<Change>,
}

impl Machine {
    pub const TASKS: usize = 8;
    pub const RECORDS: usize = 32;
    pub const CHANGES: usize = 255;
    pub const LIST: usize = 4;

    /// A fresh table of p tasks over records with these values, all idle, no link, no change used.
    pub fn fresh(p: u8, values: impl Iterator<Item = [u16; 4]>) -> Machine {
        let record = |four: [u16; 4]| Record { cells: four.map(|value| Cell { value, stamp: 0 }), mark: false, info: 0 };
        let idle = Task { at: Place::Idle, links: [None; Machine::RECORDS] };
        Machine { records: values.map(record).collect(), tasks: vec![idle; usize::from(p)], changes: vec![Change::DUMMY] }
    }

    pub fn record(&mut self, r: u8) -> &mut Record {
        &mut self.records[usize::from(r)]
    }

    pub fn task(&mut self, t: u8) -> &mut Task {
        &mut self.tasks[usize::from(t)]
    }

    pub fn change(&mut self, u: u8) -> &mut Change {
        &mut self.changes[usize::from(u)]
    }

    pub fn info(&self, r: u8) -> u8 {
        self.records[usize::from(r)].info
    }

    pub fn state(&self, u: u8) -> State {
        self.changes[usize::from(u)].state
    }

    /// A task drops its links to these records.
    pub fn drop_links(&mut self, t: u8, records: &[u8]) {
        for &r in records {
            self.task(t).links[usize::from(r)] = None;
        }
    }
}

impl Place {
    pub fn name(&self) -> &'static str {
        match self {
            Place::Idle => "idle",
            Place::Vlx { .. } => "VLX",
            Place::Read { .. } => "READ",
            Place::Llx { at, .. } => llx_name(at),
            Place::Help { job, at } => help_name(at, matches!(job.whose, Whose::Own)),
        }
    }
}

fn llx_name(at: &Llx) -> &'static str {
    match at {
        Llx::L1 => "L1",
        Llx::L2 { .. } => "L2",
        Llx::L3 { .. } => "L3",
        Llx::L4 { .. } => "L4",
        Llx::L5 { .. } => "L5",
        Llx::L6 { .. } => "L6",
        Llx::L7 { .. } => "L7",
        Llx::L8 { .. } => "L8",
        Llx::L9 => "L9",
        Llx::L10 { .. } => "L10",
        Llx::L11 => "L11",
    }
}

fn help_name(at: &Help, own: bool) -> &'static str {
    match at {
        Help::H1 { .. } if own => "H1 own",
        Help::H1 { .. } => "H1 helping",
        Help::H2 { .. } => "H2",
        Help::H3 => "H3",
        Help::H4 => "H4",
        Help::H5 => "H5",
        Help::H6 { .. } => "H6",
        Help::H7 => "H7",
        Help::H8 => "H8",
    }
}
