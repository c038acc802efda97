//! Prints the listing of the book on standard input, or `refused N`, as the recorder does, through the library.

use std::io::{self, Read, Write};

use tautlichen::{list, Refusal, ANSWERS, TEXT};

const MAX_BOOK: usize = 65536;

fn main() -> io::Result<()> {
    let mut book = Vec::new();
    // One byte more than a book may have shows that there are more.
    io::stdin().take(MAX_BOOK as u64 + 1).read_to_end(&mut book)?;
    let (mut answers, mut text) = ([0; ANSWERS], [0; TEXT]);
    let listing = if book.len() <= MAX_BOOK {
        list(&book, &mut answers, &mut text)
    } else {
        Err(Refusal(10))
    };
    match listing {
        Ok(listing) => io::stdout().write_all(listing),
        Err(refusal) => writeln!(io::stdout(), "{refusal}"),
    }
}
