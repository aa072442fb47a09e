//! The oracle: the Rust that is ported, unchanged, behind document 01's rules and the replay protocol.
//!
//! Words: none answers a script from standard input; `scripts N SEED` prints random scripts; `cover` says what a
//! script does not reach (`cover counts`: what it does), `unexpected` only what none may reach; `rust` answers by
//! the Rust alone; `compare` tells where the Rust and document 01 part.
#![allow(async_fn_in_trait)]

#[macro_use]
mod macros;

mod alloc;
mod calls;
mod config;
mod cover;
mod errors;
mod file;
mod flash;
mod generate;
mod hits;
mod page;
mod protocol;
mod raw;
mod text;
mod types;
mod world;

use std::io::{BufRead, BufWriter, Write};

use cover::Tell;
use world::World;

/// Answers a script, line by line.
fn replay(input: impl BufRead, output: impl Write) -> std::io::Result<()> {
    let mut output = BufWriter::new(output);
    let mut world = World::new();
    for line in input.split(b'\n') {
        if let Some(answer) = world.line(&line?) {
            writeln!(output, "{answer}")?;
        }
    }
    output.flush()
}

fn main() {
    text::quiet_inside();
    let words: Vec<String> = std::env::args().skip(1).collect();
    let words: Vec<&str> = words.iter().map(String::as_str).collect();
    let done = match words[..] {
        [] => replay(std::io::stdin().lock(), std::io::stdout().lock()),
        ["scripts", count, seed] => match (count.parse(), seed.parse()) {
            (Ok(count), Ok(seed)) => generate::scripts(count, seed, BufWriter::new(std::io::stdout().lock())),
            _ => usage(),
        },
        ["cover"] => cover(Tell::Missing),
        ["cover", "counts"] => cover(Tell::Counts),
        ["unexpected"] => cover(Tell::Unexpected),
        ["rust"] => raw::replay(std::io::stdin().lock(), BufWriter::new(std::io::stdout().lock())),
        ["compare"] => raw::compare(std::io::stdin().lock(), BufWriter::new(std::io::stdout().lock())),
        _ => usage(),
    };
    if let Err(e) = done {
        eprintln!("oracle: {e}");
        std::process::exit(1);
    }
}

fn cover(tell: Tell) -> std::io::Result<()> {
    if !cover::check(std::io::stdin().lock(), std::io::stdout().lock(), tell)? {
        std::process::exit(1);
    }
    Ok(())
}

fn usage() -> std::io::Result<()> {
    eprintln!("usage: oracle [scripts N SEED | cover [counts] | unexpected | rust | compare] < SCRIPT");
    std::process::exit(2);
}
