//! The twin's `book`: reads a book from standard input and prints its listing.

use std::io::{Read, Result, Write};

fn main() -> Result<()> {
    let mut book = Vec::new();
    std::io::stdin().read_to_end(&mut book)?;
    std::io::stdout().write_all(&carbon_twin::listing::book(&book))
}
