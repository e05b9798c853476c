//! The refusals 20 to 24, each by sheets damaged by hand on both sides of its limit.

use sanding::{refusal, room, text, SHEET};
use second::sheet::Draft;

const STEP: [u8; 12] = [5, 0, 0, 0, 0, 0, 0, 0, 0, 0, 0, 0];

/// A right sheet of 2 tasks, 1 record and these events.
fn right(events: Vec<[u8; 12]>) -> Vec<u8> {
    Draft { heading: Vec::new(), p: 2, values: vec![[5; 4]], events }.bytes()
}

/// That sheet without events, byte i of its trailer another.
fn with_trailer_byte(i: usize, byte: u8) -> Vec<u8> {
    let mut sheet = right(Vec::new());
    let trailer = sheet.len() - 8;
    sheet[trailer + i] = byte;
    sheet
}

/// That sheet behind a heading that makes it this long.
fn long(length: usize) -> Vec<u8> {
    let sheet = right(Vec::new());
    [vec![7; length - sheet.len()], sheet].concat()
}

/// All three functions give this refusal.
fn refused(sheet: &[u8], number: u8) {
    assert_eq!(refusal(sheet), Some(number));
    assert_eq!(room(sheet), 8);
    assert_eq!(text(sheet), format!("X {number}\n").as_bytes());
}

/// None of the three refuses, and there are so many events.
fn accepted(sheet: &[u8], events: usize) {
    assert_eq!(refusal(sheet), None);
    let records = usize::from(sheet[sheet.len() - 5]);
    assert_eq!(room(sheet), 42 * events + 38 * records + 20);
    assert_eq!(text(sheet).iter().filter(|&&byte| byte == b'\n').count(), events + records + 1);
}

#[test]
fn number_20_is_for_the_length() {
    refused(&[], 20);
    refused(&right(Vec::new())[9..], 20);
    refused(&[0; 8], 21);
    accepted(&long(SHEET), 0);
    refused(&long(SHEET + 1), 20);
}

#[test]
fn number_21_is_for_the_tag() {
    accepted(&with_trailer_byte(0, 0x52), 0);
    refused(&with_trailer_byte(0, 0x53), 21);
    refused(&with_trailer_byte(1, 0x52), 21);
}

#[test]
fn number_22_is_for_the_counts() {
    accepted(&with_trailer_byte(2, 1), 0);
    accepted(&with_trailer_byte(2, 8), 0);
    refused(&with_trailer_byte(2, 0), 22);
    refused(&with_trailer_byte(2, 9), 22);
    accepted(&Draft { p: 8, values: vec![[5; 4]; 32], ..Draft::default() }.bytes(), 0);
    refused(&with_trailer_byte(3, 0), 22);
    refused(&Draft { p: 8, values: vec![[5; 4]; 33], ..Draft::default() }.bytes(), 22);
    accepted(&right(vec![STEP; 5000]), 5000);
    refused(&right(vec![STEP; 5001]), 22);
}

#[test]
fn number_23_is_for_the_distance() {
    accepted(&with_trailer_byte(6, 8), 0);
    refused(&with_trailer_byte(6, 7), 23);
    refused(&with_trailer_byte(6, 9), 23);
    refused(&right(Vec::new())[1..], 23);
}

#[test]
fn number_24_is_for_the_events() {
    for (kind, number) in [(0, Some(24)), (1, None), (5, None), (6, Some(24))] {
        let mut event = STEP;
        event[0] = kind;
        let sheet = right(vec![STEP, event, STEP]);
        match number {
            Some(number) => refused(&sheet, number),
            None => accepted(&sheet, 3),
        }
    }
    // Byte 2 belongs to a STEP no more than byte 11 does.
    for unused in [2, 11] {
        let mut event = STEP;
        event[unused] = 1;
        refused(&right(vec![STEP, event]), 24);
    }
}
