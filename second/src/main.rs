//! The desk program: bracket text or, with the word `--card`, a card's days from
//! standard input, the verdict to standard output. With the word `--spans`, bracket
//! text, and the shortest spans of weeks that are a breach.

use std::env::args_os;
use std::io::{self, Read, Write};

use second::print::{print, print_card, print_spans, MOST_BYTES};

fn main() -> io::Result<()> {
    let mut input = Vec::new();
    let enough = MOST_BYTES as u64 + 1;
    io::stdin().lock().take(enough).read_to_end(&mut input)?;
    let page = match args_os().nth(1) {
        Some(word) if word == "--card" => print_card(&input),
        Some(word) if word == "--spans" => print_spans(&input),
        _ => print(&input),
    };
    io::stdout().lock().write_all(page.as_bytes())
}
