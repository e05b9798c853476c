//! The runs of document 01, each as text form, bytes and expected text.

use second::{form, runner, watch::Nobody};
use std::fs;
use std::path::PathBuf;

fn sheets() -> PathBuf {
    PathBuf::from(env!("CARGO_MANIFEST_DIR")).join("../sheets")
}

fn check(name: &str) {
    let read = |end: &str| fs::read(sheets().join(format!("{name}.{end}"))).expect(name);
    let bytes = form::to_bytes(&String::from_utf8(read("run")).unwrap()).expect(name);
    assert_eq!(bytes, read("sheet"), "{name}.sheet");
    let printed = runner::run(&bytes, &mut Nobody);
    let wanted = String::from_utf8(read("text")).unwrap();
    let differs = printed.lines().zip(wanted.lines()).find(|(printed, wanted)| printed != wanted);
    assert_eq!(differs, None, "{name}.text");
    assert!(printed == wanted, "{name}.text has more or fewer lines");
}

#[test]
fn every_run_is_there_and_right() {
    for run in (1..=10).chain([12]) {
        check(&format!("run-{run:02}"));
    }
    ["run-11-n0", "run-11-n5", "run-13-7-bytes", "run-13-8-bytes", "whole-example"].into_iter().for_each(check);
}

#[test]
fn the_whole_example_has_its_bytes() {
    let bytes = fs::read(sheets().join("whole-example.sheet")).unwrap();
    assert_eq!(bytes.len(), 196);
    assert_eq!(bytes[188..], [0x52, 0x53, 0x01, 0x01, 0x0f, 0x00, 0xbc, 0x00]);
}
