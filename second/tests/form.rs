//! The text form: to text and back gives the same bytes, whatever they are, and a line that says nothing is refused.

use second::{form, generate};

#[test]
fn bytes_come_back() {
    for k in 0..400 {
        let bytes = generate::sheet(9, k);
        assert_eq!(form::to_bytes(&form::to_text(&bytes)), Ok(bytes), "sheet {k}");
    }
}

#[test]
fn every_line_is_said_in_text() {
    let text = "table 2 1\nheading 41 0a\nvalues 5 0 65535 7\nllx 0 1\nstep 0 x9\nscx 1 <1 0> R{0 7} 1.3 = 65535\nscx 1 <> R{} 0.0 = 0\n\
                vlx 0 5<0 1 0 255>\nread 255 3.200\nstep 0\n";
    let bytes = form::to_bytes(text).unwrap();
    assert_eq!(bytes.len(), 2 + 8 + 15 * 12 + 8);
    assert_eq!(form::to_text(&bytes), text);
}

#[test]
fn wrong_lines_are_refused() {
    let start = "table 1 1\nvalues all 5\n";
    for line in ["", "step", "step 256", "step 0 9", "llx 0", "llx 0 1 2", "scx 0 <0> R{} 0.0", "scx 0 4<0 0 0 0> R{} 0.0 = 1"] {
        assert_eq!(form::to_bytes(&format!("{start}{line}\n")).is_err(), !line.is_empty(), "{line}");
    }
    for line in ["vlx 0 <0 1 2 3 4>", "hop 0", "repeat 2", "end", "bytes 00", "values 1 2 3 4", "heading zz"] {
        assert!(form::to_bytes(&format!("{start}{line}\n")).is_err(), "{line}");
    }
}
