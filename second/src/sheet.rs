//! Run sheets: events of 12 bytes, the reader with its refusals, and the writer.

use crate::table::Machine;
use crate::watch::Watch;

pub const LLX: u8 = 1;
pub const SCX: u8 = 2;
pub const VLX: u8 = 3;
pub const READ: u8 = 4;
pub const STEP: u8 = 5;

pub const TRAILER: usize = 8;
pub const TAG: [u8; 2] = [0x52, 0x53];
pub const MOST_BYTES: usize = 65_000;
pub const MOST_EVENTS: usize = 5_000;
pub const EVENT: usize = 12;
/// The bytes of a record's initial values.
pub const VALUES: usize = 8;

/// One event as it stands in the sheet.
pub type Bytes = [u8; EVENT];

/// What an SCX writes, and what it closes.
#[derive(Clone, Copy, Debug, Default, PartialEq, Eq)]
pub struct Write {
    pub closes: u8,
    pub place: u8,
    pub field: u8,
    pub new: u16,
}

#[derive(Clone, Copy, Debug, PartialEq, Eq)]
pub enum Event {
    Llx { t: u8, r: u8 },
    Scx { t: u8, n: u8, list: [u8; 4], write: Write },
    Vlx { t: u8, n: u8, list: [u8; 4] },
    Read { t: u8, r: u8, field: u8 },
    Step { t: u8 },
}

impl Event {
    /// The event of bytes that the reader let pass.
    pub fn of(b: &Bytes) -> Event {
        let (t, n, list) = (b[1], b[2], [b[3], b[4], b[5], b[6]]);
        let new = u16::from_le_bytes([b[10], b[11]]);
        match b[0] {
            LLX => Event::Llx { t, r: b[3] },
            SCX => Event::Scx { t, n, list, write: Write { closes: b[7], place: b[8], field: b[9], new } },
            VLX => Event::Vlx { t, n, list },
            READ => Event::Read { t, r: b[3], field: b[9] },
            _ => Event::Step { t },
        }
    }

    pub fn bytes(&self) -> Bytes {
        match *self {
            Event::Llx { t, r } => [LLX, t, 0, r, 0, 0, 0, 0, 0, 0, 0, 0],
            Event::Scx { t, n, list: l, write: w } => {
                let [low, high] = w.new.to_le_bytes();
                [SCX, t, n, l[0], l[1], l[2], l[3], w.closes, w.place, w.field, low, high]
            }
            Event::Vlx { t, n, list: l } => [VLX, t, n, l[0], l[1], l[2], l[3], 0, 0, 0, 0, 0],
            Event::Read { t, r, field } => [READ, t, 0, r, 0, 0, 0, 0, 0, field, 0, 0],
            Event::Step { t } => [STEP, t, 0, 0, 0, 0, 0, 0, 0, 0, 0, 0],
        }
    }

    pub fn task(&self) -> u8 {
        match *self {
            Event::Llx { t, .. } | Event::Scx { t, .. } | Event::Vlx { t, .. } | Event::Read { t, .. } | Event::Step { t } => t,
        }
    }
}

/// The parts of an accepted sheet.
#[derive(Debug)]
pub struct Sheet<'a> {
    pub heading: &'a [u8],
    pub p: u8,
    pub values: &'a [u8],
    pub events: &'a [u8],
}

impl<'a> Sheet<'a> {
    /// Reads a sheet or gives the number of its refusal, the lowest that applies.
    pub fn read<W: Watch>(bytes: &'a [u8], watch: &mut W) -> Result<Sheet<'a>, u8> {
        check_size(bytes.len(), watch)?;
        let (front, trailer) = bytes.split_at(bytes.len() - TRAILER);
        check_tag(trailer, watch)?;
        let (p, n) = (trailer[2], trailer[3]);
        let count = u16::from_le_bytes([trailer[4], trailer[5]]);
        check_counts(p, n, count, watch)?;
        let distance = usize::from(u16::from_le_bytes([trailer[6], trailer[7]]));
        let (values, events) = (VALUES * usize::from(n), EVENT * usize::from(count));
        check_distance(distance, values + events, front.len(), watch)?;
        let (heading, body) = front.split_at(front.len() - distance);
        let (values, events) = body.split_at(values);
        for b in events.chunks_exact(EVENT) {
            check_event(b, watch)?;
        }
        let sheet = Sheet { heading, p, values, events };
        sheet.tell(bytes.len(), watch);
        Ok(sheet)
    }

    /// The initial values, four a record.
    pub fn records(&self) -> impl Iterator<Item = [u16; 4]> + 'a {
        let value = |b: &[u8], i: usize| u16::from_le_bytes([b[2 * i], b[2 * i + 1]]);
        self.values.chunks_exact(VALUES).map(move |b| [value(b, 0), value(b, 1), value(b, 2), value(b, 3)])
    }

    pub fn events(&self) -> impl Iterator<Item = Event> + 'a {
        self.events.chunks_exact(EVENT).map(|b| Event::of(b.try_into().unwrap()))
    }

    /// Tells the watch which limits this sheet is at.
    fn tell<W: Watch>(&self, size: usize, watch: &mut W) {
        let records = self.values.len() / VALUES;
        let limits = [
            (size == MOST_BYTES, "sheet of 65,000 bytes"),
            (!self.heading.is_empty(), "sheet with a heading"),
            (self.events.is_empty(), "sheet without events"),
            (self.events.len() == EVENT * MOST_EVENTS, "sheet of 5,000 events"),
            (usize::from(self.p) == Machine::TASKS, "sheet with 8 tasks"),
            (records == Machine::RECORDS, "sheet with 32 records"),
        ];
        limits.iter().filter(|limit| limit.0).for_each(|limit| watch.seen(limit.1));
    }
}

/// Passes what is right; tells the watch of a cause and gives its refusal otherwise.
fn demand<W: Watch>(right: bool, refusal: u8, cause: &'static str, watch: &mut W) -> Result<(), u8> {
    if right {
        return Ok(());
    }
    watch.seen(cause);
    Err(refusal)
}

fn check_size<W: Watch>(size: usize, watch: &mut W) -> Result<(), u8> {
    if size < TRAILER {
        watch.seen_number("20: size", size);
        return Err(20);
    }
    demand(size <= MOST_BYTES, 20, "20: over 65,000 bytes", watch)
}

fn check_tag<W: Watch>(trailer: &[u8], watch: &mut W) -> Result<(), u8> {
    demand(trailer[0] == TAG[0], 21, "21: first tag byte", watch)?;
    demand(trailer[1] == TAG[1], 21, "21: second tag byte", watch)
}

fn check_counts<W: Watch>(p: u8, n: u8, count: u16, watch: &mut W) -> Result<(), u8> {
    demand(p > 0, 22, "22: P 0", watch)?;
    demand(usize::from(p) <= Machine::TASKS, 22, "22: P above 8", watch)?;
    demand(n > 0, 22, "22: N 0", watch)?;
    demand(usize::from(n) <= Machine::RECORDS, 22, "22: N above 32", watch)?;
    demand(usize::from(count) <= MOST_EVENTS, 22, "22: E above 5,000", watch)
}

fn check_distance<W: Watch>(distance: usize, right: usize, room: usize, watch: &mut W) -> Result<(), u8> {
    demand(distance >= right, 23, "23: distance too short", watch)?;
    demand(distance <= right, 23, "23: distance too long", watch)?;
    demand(distance <= room, 23, "23: before the first byte", watch)
}

fn check_event<W: Watch>(b: &[u8], watch: &mut W) -> Result<(), u8> {
    demand(b[0] >= LLX, 24, "24: kind 0", watch)?;
    demand(b[0] <= STEP, 24, "24: kind above 5", watch)?;
    let used = used_bytes(b[0], b[2]);
    for (i, &byte) in b.iter().enumerate() {
        if byte != 0 && used & (1 << i) == 0 {
            let cause = ["24: LLX byte", "24: SCX byte", "24: VLX byte", "24: READ byte", "24: STEP byte"];
            watch.seen_number(cause[usize::from(b[0] - LLX)], i);
            return Err(24);
        }
    }
    Ok(())
}

/// The bytes that a kind uses, bit i for byte i; the first n list bytes belong to a list of n.
pub fn used_bytes(kind: u8, n: u8) -> u16 {
    let list = ((1 << usize::from(n).min(Machine::LIST)) - 1) << 3;
    match kind {
        LLX => 0b0000_0000_1011,
        SCX => 0b1111_1000_0111 | list,
        VLX => 0b0000_0000_0111 | list,
        READ => 0b0010_0000_1011,
        _ => 0b0000_0000_0011,
    }
}

/// A sheet in parts that can be written.
#[derive(Clone, Debug, Default)]
pub struct Draft {
    pub heading: Vec<u8>,
    pub p: u8,
    pub values: Vec<[u16; 4]>,
    pub events: Vec<Bytes>,
}

impl Draft {
    /// The sheet's bytes, the trailer's distance the right one.
    pub fn bytes(&self) -> Vec<u8> {
        let mut out = self.heading.clone();
        out.extend(self.values.iter().flatten().flat_map(|value| value.to_le_bytes()));
        out.extend(self.events.iter().flatten());
        let distance = out.len() - self.heading.len();
        out.extend(TAG);
        out.extend([self.p, self.values.len() as u8]);
        out.extend((self.events.len() as u16).to_le_bytes());
        out.extend((distance as u16).to_le_bytes());
        out
    }
}
