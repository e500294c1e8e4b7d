//! The verdict program: standard input to standard output. The exit status is 1 only where a
//! stream fails.

use peer::text::{MOST_BYTES, verdict};
use std::io::{self, Read, Write};

fn main() -> io::Result<()> {
    let mut input = Vec::new();
    io::stdin().lock().take(MOST_BYTES as u64 + 1).read_to_end(&mut input)?;
    let mut output = io::stdout().lock();
    output.write_all(verdict(&input).as_bytes())?;
    output.flush()
}
