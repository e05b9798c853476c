//! Reads a run sheet on standard input and prints its run.

use second::{runner, sheet, watch::Nobody};
use std::io::{self, Read, Write};

fn main() -> io::Result<()> {
    let mut bytes = Vec::new();
    // One byte more than a sheet may have is enough to refuse it.
    io::stdin().lock().take(sheet::MOST_BYTES as u64 + 1).read_to_end(&mut bytes)?;
    io::stdout().lock().write_all(runner::run(&bytes, &mut Nobody).as_bytes())
}
