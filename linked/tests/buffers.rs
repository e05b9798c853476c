//! The lent buffer: how long it has to be, and which of its bytes are kept.

use sanding::{room, run, ROOM};
use second::generate;
use second::runner;
use second::sheet::{Draft, Event};
use second::watch::Nobody;

/// A buffer of bytes that no text has, each other than the next.
fn pattern(length: usize) -> Vec<u8> {
    (0..length).map(|i| 128 + (i % 127) as u8).collect()
}

/// The run stands at the front of a buffer of this length and the rest is kept.
fn runs(sheet: &[u8], length: usize) {
    let wanted = runner::run(sheet, &mut Nobody).into_bytes();
    let mut buffer = pattern(length);
    assert_eq!(run(sheet, &mut buffer), Some(wanted.len()));
    assert!(buffer[..wanted.len()] == wanted, "the text");
    assert!(buffer[wanted.len()..] == pattern(length)[wanted.len()..], "the bytes beyond the text");
}

/// A buffer of this length is not taken and is kept.
fn is_short(sheet: &[u8], length: usize) {
    let mut buffer = pattern(length);
    assert_eq!(run(sheet, &mut buffer), None);
    assert!(buffer == pattern(length), "a buffer of {length} is altered");
}

/// The sheet with the longest text: 5,000 events of the highest task number there is, and 32 records.
fn longest() -> Vec<u8> {
    let events = vec![Event::Step { t: 255 }.bytes(); 5000];
    let draft = Draft { heading: Vec::new(), p: 8, values: vec![[65_535; 4]; 32], events };
    let heading = sanding::SHEET - draft.bytes().len();
    Draft { heading: vec![7; heading], ..draft }.bytes()
}

/// Generated sheets, the longest one, and refused ones.
fn sheets() -> Vec<Vec<u8>> {
    let mut sheets: Vec<Vec<u8>> = (0..20).map(|k| generate::sheet(1, k)).collect();
    sheets.extend([longest(), Vec::new(), vec![0; 8], vec![0; 65_001]]);
    sheets
}

#[test]
fn the_room_is_enough() {
    for sheet in sheets() {
        let room = room(&sheet);
        runs(&sheet, room);
        runs(&sheet, room + 1);
        runs(&sheet, ROOM);
    }
}

#[test]
fn less_is_too_short_and_kept() {
    for sheet in sheets() {
        let room = room(&sheet);
        [room - 1, room / 2, 1, 0].into_iter().for_each(|length| is_short(&sheet, length));
    }
}

#[test]
fn no_room_is_longer_than_the_longest() {
    let sheet = longest();
    assert_eq!(sheet.len(), sanding::SHEET);
    assert_eq!(room(&sheet), ROOM);
}
