//! The program of document 01: runs standard input on the fresh ledger.

use std::io::{self, Read, Write};

use second::run::{judge, LONGEST_TRACE};

fn main() -> io::Result<()> {
    let mut input = Vec::new();
    // One byte more than allowed is enough to know that the trace is too long.
    let limit = LONGEST_TRACE as u64 + 1;
    io::stdin().lock().take(limit).read_to_end(&mut input)?;
    io::stdout().write_all(judge(&input).as_bytes())
}
