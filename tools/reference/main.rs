//! Reads a packed day file from standard input and prints its report.

use std::io::{self, Read, Write};

fn main() -> io::Result<()> {
    let mut bytes = Vec::with_capacity(reference::format::LARGEST_FILE + 1);
    let most = reference::format::LARGEST_FILE as u64 + 1;
    io::stdin().lock().take(most).read_to_end(&mut bytes)?;
    io::stdout()
        .lock()
        .write_all(&reference::report::report(&bytes))
}
