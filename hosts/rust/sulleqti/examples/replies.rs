//! Reads a request a line on standard input, and writes a reply a line on standard output, as
//! `csl_serve` does. With the word `--trusted` the engine is one without limits.

use std::error::Error;
use std::io::{self, BufRead, Write};
use sulleqti::Engine;

fn main() -> Result<(), Box<dyn Error>> {
    let is_trusted = std::env::args().any(|word| word == "--trusted");
    let mut engine = if is_trusted { Engine::trusted()? } else { Engine::new()? };
    let mut replies = io::stdout().lock();
    for request in io::stdin().lock().split(b'\n') {
        writeln!(replies, "{}", engine.answer(&request?)?)?;
    }
    Ok(())
}
