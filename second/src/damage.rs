//! Damaged sheets: every cause of 20 to 24 in turn, now and then two at once.

use crate::generate;
use crate::random::Random;
use crate::sheet::{used_bytes, Bytes, Draft, EVENT, LLX, MOST_BYTES, MOST_EVENTS, SCX, STEP, TRAILER, VLX};
use crate::style::Style;

#[derive(Clone, Copy, Debug)]
enum Damage {
    /// Only the last bytes are left.
    Left(usize),
    /// A heading that makes the sheet this long.
    Long(usize),
    /// This byte of the trailer is another.
    Trailer(usize, u8),
    /// One event too many, the sheet else right.
    Crowded,
    /// The distance is off by so much.
    Off(i32),
    /// So many bytes at the front are missing.
    Cut(usize),
    /// An event of this kind.
    Kind(u8),
    /// An event of this kind with this unused byte set.
    Unused(u8, usize),
    /// Bytes without any order, under a right tag or not.
    Noise(bool),
}

use Damage::{Crowded, Cut, Kind, Left, Long, Noise, Off, Trailer, Unused};

/// Every damage there is.
fn all() -> Vec<Damage> {
    let mut all: Vec<Damage> = (0..=TRAILER).map(Left).collect();
    all.extend([65_001, 65_002, 65_536, 65_544, 70_000, 131_080].map(Long));
    all.extend([(0, 0x53), (0, 0), (1, 0x52), (1, 0x73), (2, 0), (2, 9), (2, 255), (3, 0), (3, 33), (3, 255)].map(|(i, b)| Trailer(i, b)));
    all.extend([(5, 0x14), (5, 255), (6, 0), (7, 255)].map(|(i, b)| Trailer(i, b)));
    all.push(Crowded);
    all.extend([-12, -8, -1, 1, 8, 12, 256].map(Off));
    all.extend([1, 7, 8, 12, 40].map(Cut));
    all.extend([0, 0, 6, 7, 128, 255].map(Kind));
    for kind in LLX..=STEP {
        let unused = (0..EVENT).filter(|i| used_bytes(kind, 0) & (1 << i) == 0);
        all.extend(unused.map(|i| Unused(kind, i)));
    }
    all.extend([Noise(false), Noise(true)]);
    all
}

/// The damaged sheet number k.
pub fn damaged(k: u64, random: &mut Random) -> Vec<u8> {
    let all = all();
    let mut draft = small(random);
    let mut damages = vec![all[k as usize % all.len()]];
    if random.chance(150) {
        damages.push(random.pick(&all));
    }
    for &damage in &damages {
        damage_events(&mut draft, damage, random);
    }
    let mut bytes = draft.bytes();
    for &damage in &damages {
        damage_bytes(&mut bytes, damage, random);
    }
    bytes
}

/// A right sheet of a few events.
fn small(random: &mut Random) -> Draft {
    let kind = random.pick(&[1, 2, 2, 5, 60]);
    let mut style = Style::of(kind, random);
    style.events = random.below(40);
    style.heading = style.heading.min(100);
    let seed = random.word();
    generate::valid(style, Random::of(seed, 0))
}

fn damage_events(draft: &mut Draft, damage: Damage, random: &mut Random) {
    match damage {
        Crowded => {
            let step: Bytes = [STEP, 0, 0, 0, 0, 0, 0, 0, 0, 0, 0, 0];
            draft.events.resize(MOST_EVENTS + 1, step);
        }
        Kind(kind) => insert(draft, event(kind, EVENT, random), random),
        Unused(kind, byte) => insert(draft, event(kind, byte, random), random),
        // Only a sheet without a heading reaches before its first byte when it is cut.
        Cut(_) => draft.heading.clear(),
        _ => {}
    }
}

fn insert(draft: &mut Draft, event: Bytes, random: &mut Random) {
    let at = random.from_to(0, draft.events.len());
    draft.events.insert(at, event);
}

/// An event of this kind in which this byte, if there is one of that number, is set though it is not used.
fn event(kind: u8, byte: usize, random: &mut Random) -> Bytes {
    let mut event = [0; EVENT];
    event[0] = kind;
    event[1] = random.below(9) as u8;
    let listed = matches!(kind, SCX | VLX) && (3..=6).contains(&byte);
    if listed {
        event[2] = random.from_to(0, byte - 3) as u8;
    }
    if byte < EVENT {
        event[byte] = if random.chance(500) { 1 << random.below(8) } else { random.from_to(1, 255) as u8 };
    }
    event
}

fn damage_bytes(bytes: &mut Vec<u8>, damage: Damage, random: &mut Random) {
    let trailer = bytes.len().saturating_sub(TRAILER);
    match damage {
        Left(size) => drop(bytes.drain(..bytes.len().saturating_sub(size))),
        Cut(size) => drop(bytes.drain(..size.min(trailer))),
        Long(size) if bytes.len() <= MOST_BYTES => drop(bytes.splice(..0, vec![random.byte(); size - bytes.len()])),
        Trailer(i, byte) if bytes.len() >= TRAILER => bytes[trailer + i] = byte,
        Off(by) if bytes.len() >= TRAILER => {
            let distance = u16::from_le_bytes([bytes[trailer + 6], bytes[trailer + 7]]);
            let [low, high] = distance.wrapping_add(by as u16).to_le_bytes();
            (bytes[trailer + 6], bytes[trailer + 7]) = (low, high);
        }
        Noise(tag) => {
            let noise: Vec<u8> = (0..random.from_to(TRAILER, 300)).map(|_| random.byte()).collect();
            *bytes = noise;
            if tag {
                let trailer = bytes.len() - TRAILER;
                bytes[trailer..trailer + 2].copy_from_slice(&crate::sheet::TAG);
            }
        }
        _ => {}
    }
}
