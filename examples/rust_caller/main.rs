//! Registers two queries, matches an article and prints which of them hold of it, and where: the steps of
//! `examples/c/main.c`, by the wrapper in `pressclip.rs`.

mod pressclip;
#[cfg(test)]
mod tests;

use pressclip::Monitor;
use std::error::Error;
use std::io::{self, Write};
use std::process::ExitCode;

/// The steps, with what is printed written to `out`.
fn steps(out: &mut impl Write) -> Result<(), Box<dyn Error>> {
    let mut monitor = Monitor::open(true)?;
    monitor.register("tea-prices", "+tea pric*", None)?;
    monitor.register("strikes", "strike strikes", None)?;
    for found in monitor.match_article("a1", &[("text", "Tea prices rise again")])? {
        writeln!(out, "{} holds of a1", found.query)?;
        for hit in found.hits {
            writeln!(out, "  at word {} of {}", hit.position, hit.field)?;
        }
    }
    if let Err(refused) = monitor.register("open", "the (tea", None) {
        writeln!(out, "\"the (tea\" is refused: {refused}")?;
    }
    Ok(())
}

fn main() -> ExitCode {
    match steps(&mut io::stdout().lock()) {
        Ok(()) => ExitCode::SUCCESS,
        Err(error) => {
            eprintln!("rust_caller: {error}");
            ExitCode::FAILURE
        }
    }
}
