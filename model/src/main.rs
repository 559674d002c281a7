//! Reads a scenario from standard input and writes its run sheet to standard
//! output. The status is always 0.

use std::io::{self, Read, Write};

use model::scenario::MAX_TEXT;
use model::sheet;

fn main() {
    if let Err(error) = run() {
        // Nothing is left to do if even this cannot be written.
        let _ = writeln!(io::stderr(), "model: {error}");
    }
}

fn run() -> io::Result<()> {
    // One byte more than a scenario may have: enough to see that it is too long.
    let mut text = Vec::with_capacity(MAX_TEXT + 1);
    io::stdin()
        .lock()
        .take(MAX_TEXT as u64 + 1)
        .read_to_end(&mut text)?;
    let sheet = sheet::of(&text);
    let mut out = io::stdout().lock();
    out.write_all(&sheet)?;
    out.flush()
}
