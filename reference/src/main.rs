//! Reads standard input to its end as one text and writes the answers to standard output.

use std::io::{self, Read, Write};

fn main() -> io::Result<()> {
    let mut text = Vec::new();
    io::stdin().lock().read_to_end(&mut text)?;
    let mut output = io::stdout().lock();
    output.write_all(&reference::answers(&text))?;
    output.flush()
}
