//! What every comparison with the second program needs: the first line that differs, and where the sheet that shows it is kept.

use std::path::PathBuf;

/// The first line in which two texts differ.
pub fn difference(ours: &[u8], theirs: &[u8]) -> Option<String> {
    if ours == theirs {
        return None;
    }
    let (mut our_lines, mut their_lines) = (ours.split_inclusive(|&b| b == b'\n'), theirs.split_inclusive(|&b| b == b'\n'));
    let mut number = 1;
    loop {
        let (our, their) = (our_lines.next(), their_lines.next());
        if our != their {
            let show = |line: Option<&[u8]>| line.map_or("no line".into(), |line| format!("{:?}", String::from_utf8_lossy(line)));
            return Some(format!("line {number} should be {} and is {}", show(our), show(their)));
        }
        number += 1;
    }
}

/// A file next to the program that runs, so that nothing is left elsewhere.
pub fn beside(name: &str) -> Result<PathBuf, String> {
    let program = std::env::current_exe().map_err(|why| why.to_string())?;
    Ok(program.with_file_name(name))
}
