//! The day printer on standard input and output.

use std::io::{self, BufWriter};

fn main() -> io::Result<()> {
    peer::printer::print(io::stdin().lock(), BufWriter::new(io::stdout().lock()))
}
