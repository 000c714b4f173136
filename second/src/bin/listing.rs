//! The listing by the second program: lines from standard input, an answer to each on standard
//! output.

use second::listing::Listing;
use std::io::{self, BufRead, BufWriter, Write};

fn main() -> io::Result<()> {
    let (mut input, mut output) = (io::stdin().lock(), BufWriter::new(io::stdout().lock()));
    let (mut listing, mut line) = (Listing::default(), vec![]);
    while input.read_until(b'\n', &mut line)? > 0 {
        let answer = listing.answer(line.strip_suffix(b"\n").unwrap_or(&line));
        writeln!(output, "{answer}")?;
        line.clear();
    }
    output.flush()
}
