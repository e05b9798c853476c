//! The reader's refusals, one by one and on the edge.

use second::sheet::{Draft, Sheet, MOST_BYTES};
use second::watch::Nobody;

fn read(bytes: &[u8]) -> u8 {
    Sheet::read(bytes, &mut Nobody).map_or_else(|refusal| refusal, |_| 0)
}

/// P 2, N 1 and these events.
fn sheet(events: Vec<[u8; 12]>) -> Vec<u8> {
    Draft { heading: Vec::new(), p: 2, values: vec![[5; 4]], events }.bytes()
}

fn with_trailer_byte(i: usize, byte: u8) -> u8 {
    let mut bytes = sheet(Vec::new());
    let trailer = bytes.len() - 8;
    bytes[trailer + i] = byte;
    read(&bytes)
}

#[test]
fn sizes() {
    for size in 0..8 {
        assert_eq!(read(&vec![0x52; size]), 20);
    }
    assert_eq!(read(&[0; 8]), 21);
    let long = |size: usize| {
        let body = sheet(Vec::new());
        [vec![7; size - body.len()], body].concat()
    };
    assert_eq!(read(&long(MOST_BYTES)), 0);
    assert_eq!(read(&long(MOST_BYTES + 1)), 20);
}

#[test]
fn trailers() {
    assert_eq!(read(&sheet(Vec::new())), 0);
    assert_eq!([with_trailer_byte(0, 0x53), with_trailer_byte(1, 0x52)], [21, 21]);
    assert_eq!([0, 9, 255].map(|p| with_trailer_byte(2, p)), [22; 3]);
    assert_eq!([0, 33, 255].map(|n| with_trailer_byte(3, n)), [22; 3]);
    // Two records are in range, but then the distance is wrong.
    assert_eq!([1, 8].map(|p| with_trailer_byte(2, p)), [0, 0]);
    assert_eq!([2, 32].map(|n| with_trailer_byte(3, n)), [23, 23]);
    assert_eq!([7, 9, 0].map(|distance| with_trailer_byte(6, distance)), [23; 3]);
    assert_eq!(read(&sheet(Vec::new())[1..]), 23);
}

#[test]
fn event_counts() {
    let step = [5, 0, 0, 0, 0, 0, 0, 0, 0, 0, 0, 0];
    assert_eq!(read(&sheet(vec![step; 5000])), 0);
    assert_eq!(read(&sheet(vec![step; 5001])), 22);
}

#[test]
fn kinds_and_unused_bytes() {
    let one = |event: [u8; 12]| read(&sheet(vec![event]));
    for kind in 0..=255 {
        let right = (1..=5).contains(&kind);
        assert_eq!(one([kind, 255, 0, 0, 0, 0, 0, 0, 0, 0, 0, 0]), if right { 0 } else { 24 });
    }
    // For each kind, the bytes that may be set when n is 2, and when n is 5.
    let used: [(u8, &[usize]); 5] = [(1, &[3]), (2, &[3, 4, 7, 8, 9, 10, 11]), (3, &[3, 4]), (4, &[3, 9]), (5, &[])];
    for (kind, used) in used {
        let lists = kind == 2 || kind == 3;
        for n in [2, 5] {
            for byte in 3..12 {
                let mut event = [kind, 0, if lists { n } else { 0 }, 0, 0, 0, 0, 0, 0, 0, 0, 0];
                event[byte] = 255;
                let free = used.contains(&byte) || (lists && n == 5 && byte < 7);
                assert_eq!(one(event), if free { 0 } else { 24 }, "kind {kind}, n {n}, byte {byte}");
            }
        }
        assert_eq!(one([kind, 0, 200, 0, 0, 0, 0, 0, 0, 0, 0, 0]), if lists { 0 } else { 24 });
    }
}

#[test]
fn the_lowest_refusal_is_given() {
    let mut bytes = sheet(vec![[9; 12]]);
    assert_eq!(read(&bytes), 24);
    let trailer = bytes.len() - 8;
    bytes[trailer + 6] += 1;
    assert_eq!(read(&bytes), 23);
    bytes[trailer + 2] = 0;
    assert_eq!(read(&bytes), 22);
    bytes[trailer] = 0;
    assert_eq!(read(&bytes), 21);
    assert_eq!(read(&[vec![0; MOST_BYTES], bytes].concat()), 20);
}
