//! One sheet compared: what the library says of it, the text it writes, and every byte that it has to keep.

use second::differ::difference;
use second::random::Random;
use second::runner;
use second::sheet::{Sheet, EVENT, VALUES};
use second::watch::Nobody;
use std::ops::Range;

/// What is compared with the second program: the linked library, or a stand-in with a fault.
pub trait Library {
    fn refusal(&self, sheet: &[u8]) -> Option<u8>;

    fn room(&self, sheet: &[u8]) -> usize;

    /// Runs the sheet into the part of `all` that is lent.
    fn run(&self, sheet: &[u8], all: &mut [u8], lent: Range<usize>) -> Option<usize>;
}

/// The library of `.ci/build sanding`.
pub struct Linked;

impl Library for Linked {
    fn refusal(&self, sheet: &[u8]) -> Option<u8> {
        sanding::refusal(sheet)
    }

    fn room(&self, sheet: &[u8]) -> usize {
        sanding::room(sheet)
    }

    fn run(&self, sheet: &[u8], all: &mut [u8], lent: Range<usize>) -> Option<usize> {
        sanding::run(sheet, &mut all[lent])
    }
}

/// What the second program says of a sheet.
pub struct Right {
    pub refusal: Option<u8>,
    pub events: usize,
    pub room: usize,
    pub text: String,
}

impl Right {
    pub fn of(sheet: &[u8]) -> Right {
        let text = runner::run(sheet, &mut Nobody);
        match Sheet::read(sheet, &mut Nobody) {
            Ok(read) => {
                let (events, records) = (read.events.len() / EVENT, read.values.len() / VALUES);
                Right { refusal: None, events, room: 42 * events + 38 * records + 20, text }
            }
            Err(number) => Right { refusal: Some(number), events: 0, room: 8, text },
        }
    }
}

/// Bytes before and behind a lent buffer; at most so many more are lent than are asked for.
const AROUND: usize = 64;

/// The noise begins at one of so many places, so that a byte that is altered to what it was is not so the next time.
const SHIFTS: usize = 256;

/// Lends buffers that hold noise, with noise around them, and looks at all of it afterwards.
pub struct Lender {
    noise: Vec<u8>,
    all: Vec<u8>,
}

impl Lender {
    pub fn new() -> Lender {
        let mut random = Random::of(0, 0);
        let most = sanding::ROOM + 3 * AROUND;
        let noise = (0..most + SHIFTS).map(|_| random.byte()).collect();
        Lender { noise, all: vec![0; most] }
    }

    /// What is wrong when the library runs the sheet into a buffer of this length: the text is wanted, or, with none, all is kept.
    fn lend(&mut self, library: &impl Library, sheet: &[u8], length: usize, wanted: Option<&str>, random: &mut Random) -> Option<String> {
        let start = random.from_to(1, AROUND);
        let lent = start..start + length;
        let before = &self.noise[random.below(SHIFTS)..][..lent.end + AROUND];
        let after = &mut self.all[..before.len()];
        after.copy_from_slice(before);
        let answer = library.run(sheet, after, lent.clone());
        let text = wanted.unwrap_or("").as_bytes();
        let written = &after[lent][..answer.unwrap_or(0).min(length)];
        if let Some(what) = difference(text, written) {
            return Some(what);
        }
        if answer != wanted.map(str::len) {
            return Some(format!("the length should be {} and is {}", text.len(), answer.unwrap_or(0)));
        }
        let kept = [0..start, start + text.len()..before.len()];
        let altered = kept.into_iter().find(|part| before[part.clone()] != after[part.clone()])?;
        let at = altered.start + before[altered.clone()].iter().zip(&after[altered]).take_while(|(one, other)| one == other).count();
        Some(format!("byte {} of a buffer of {length} is altered, and the text has {} bytes", at as isize - start as isize, text.len()))
    }
}

/// What is wrong with what the library says of sheet k, if anything; one sheet in eight is also run into a buffer that is too short.
pub fn check(library: &impl Library, k: u64, sheet: &[u8], right: &Right, lender: &mut Lender) -> Option<String> {
    let refusal = library.refusal(sheet);
    if refusal != right.refusal {
        return Some(format!("the refusal should be {} and is {}", right.refusal.unwrap_or(0), refusal.unwrap_or(0)));
    }
    let room = library.room(sheet);
    if room != right.room {
        return Some(format!("the room should be {} and is {room}", right.room));
    }
    let mut random = Random::of(0, k);
    let length = match random.below(16) {
        0..=7 => room,
        8..=14 => room + random.from_to(1, AROUND),
        _ => sanding::ROOM,
    };
    let wrong = lender.lend(library, sheet, length, Some(&right.text), &mut random);
    let short = match random.below(16) {
        0 => room - 1,
        1 => random.below(room),
        _ => return wrong,
    };
    wrong.or_else(|| lender.lend(library, sheet, short, None, &mut random))
}
