//! Turns the text form of a sheet into its bytes, and bytes into text: `sheet to-bytes` and `sheet to-text`, standard input to standard output.

use second::form;
use std::io::{self, Read, Write};
use std::process::ExitCode;

fn main() -> ExitCode {
    match convert(std::env::args().nth(1).as_deref()) {
        Ok(()) => ExitCode::SUCCESS,
        Err(why) => {
            eprintln!("sheet: {why}");
            ExitCode::FAILURE
        }
    }
}

fn convert(way: Option<&str>) -> Result<(), String> {
    let mut input = Vec::new();
    io::stdin().lock().read_to_end(&mut input).map_err(|why| why.to_string())?;
    let output = match way {
        Some("to-bytes") => form::to_bytes(&String::from_utf8_lossy(&input))?,
        Some("to-text") => form::to_text(&input).into_bytes(),
        _ => return Err("usage: sheet to-bytes|to-text, standard input to standard output".into()),
    };
    io::stdout().lock().write_all(&output).map_err(|why| why.to_string())
}
