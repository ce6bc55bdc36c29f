//! The case-file program in plain Rust: standard input to standard output.

use std::fs::File;
use std::io::{self, BufReader, BufWriter};
use std::os::fd::AsFd;

const BUFFER: usize = 1 << 16;

fn main() -> io::Result<()> {
    // Rust's own standard output writes at each end of line; a file does not.
    let output = File::from(io::stdout().as_fd().try_clone_to_owned()?);
    reference::listing(BufReader::with_capacity(BUFFER, io::stdin().lock()), BufWriter::with_capacity(BUFFER, output))
}
