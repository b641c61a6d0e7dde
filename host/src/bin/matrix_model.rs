//! `matrix` on the independent scheduler: standard input to standard output. For comparison with the real program.

use std::io::{self, Read, Write};

fn main() -> io::Result<()> {
    let mut input = Vec::new();
    // One byte above the limit is enough to know that the input is too long.
    io::stdin().take(host::lift::LARGEST_INPUT as u64 + 1).read_to_end(&mut input)?;
    io::stdout().write_all(&host::page::matrix(&input))
}
