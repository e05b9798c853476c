//! Stand-ins for the library with one fault each, all of which the comparison has to notice.

use crate::check::{Library, Right};
use second::runner;
use second::watch::{Broken, Mistake};
use std::ops::Range;

/// A fault at the boundary: in what is answered, or in which bytes are written.
#[derive(Clone, Copy, PartialEq, Eq)]
pub enum Fault {
    None,
    /// A mistake of the machine.
    Machine(Mistake),
    RefusalNext,
    RefusalAccepted,
    RefusalOfRight,
    RoomMore,
    RoomLess,
    RoomOfRefused,
    LengthMore,
    LastByte,
    Beyond,
    Before,
    Behind,
    ShortAltered,
    ShortAnswered,
    ShortByOne,
}

impl Fault {
    /// Every fault of the boundary.
    const BOUNDARY: [(Fault, &'static str); 14] = [
        (Fault::RefusalNext, "a refusal is one too high"),
        (Fault::RefusalAccepted, "a refused sheet is called accepted"),
        (Fault::RefusalOfRight, "a sheet without events is called refused"),
        (Fault::RoomMore, "the room is a byte too long"),
        (Fault::RoomLess, "the room is a byte too short"),
        (Fault::RoomOfRefused, "the room of a refused sheet is the text's length"),
        (Fault::LengthMore, "the length that is answered is a byte too long"),
        (Fault::LastByte, "the last byte of the text is not written"),
        (Fault::Beyond, "a byte beyond the text is written"),
        (Fault::Before, "a byte before the buffer is written"),
        (Fault::Behind, "a byte behind the buffer is written"),
        (Fault::ShortAltered, "a buffer that is too short is altered"),
        (Fault::ShortAnswered, "a buffer that is too short is kept, but a length is answered"),
        (Fault::ShortByOne, "a buffer that is a byte too short is taken"),
    ];

    /// Every fault with its name: those of the machine, then those of the boundary.
    pub fn all() -> Vec<(Fault, &'static str)> {
        Mistake::ALL.map(|(mistake, name)| (Fault::Machine(mistake), name)).into_iter().chain(Fault::BOUNDARY).collect()
    }
}

/// The second program in the library's place, with this fault.
pub struct StandIn<'a>(pub Fault, pub &'a Right);

impl Library for StandIn<'_> {
    fn refusal(&self, _sheet: &[u8]) -> Option<u8> {
        match (self.0, self.1.refusal) {
            (Fault::RefusalNext, Some(number)) => Some(number + 1),
            (Fault::RefusalAccepted, _) => None,
            (Fault::RefusalOfRight, None) if self.1.events == 0 => Some(22),
            (_, right) => right,
        }
    }

    fn room(&self, _sheet: &[u8]) -> usize {
        match self.0 {
            Fault::RoomMore => self.1.room + 1,
            Fault::RoomLess => self.1.room - 1,
            Fault::RoomOfRefused if self.1.refusal.is_some() => self.1.text.len(),
            _ => self.1.room,
        }
    }

    fn run(&self, sheet: &[u8], all: &mut [u8], lent: Range<usize>) -> Option<usize> {
        let least = if self.0 == Fault::ShortByOne { self.1.room - 1 } else { self.1.room };
        if lent.len() < least {
            if self.0 == Fault::ShortAltered && !lent.is_empty() {
                all[lent.start] = b'X';
            }
            return (self.0 == Fault::ShortAnswered).then_some(lent.len());
        }
        let broken;
        let text = match self.0 {
            Fault::Machine(mistake) => {
                broken = runner::run(sheet, &mut Broken(mistake));
                broken.as_bytes()
            }
            Fault::LastByte => &self.1.text.as_bytes()[..self.1.text.len() - 1],
            _ => self.1.text.as_bytes(),
        };
        all[lent.start..][..text.len()].copy_from_slice(text);
        match self.0 {
            Fault::Beyond => all[lent.start + text.len()] = 0,
            Fault::Before => all[lent.start - 1] = 0,
            Fault::Behind => all[lent.end] = 0,
            _ => {}
        }
        Some(match self.0 {
            Fault::LengthMore => text.len() + 1,
            Fault::LastByte => self.1.text.len(),
            _ => text.len(),
        })
    }
}
