//! The session program on standard input and output.

use std::io::{self, BufWriter};

fn main() -> io::Result<()> {
    reference::session::run(io::stdin().lock(), BufWriter::new(io::stdout().lock()))
}
