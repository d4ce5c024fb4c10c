//! The program: which inputs are asked, and how the answers are written.
mod domain;
mod encoders;
mod generate;
mod imms;
mod operations;

use std::io::{self, BufWriter, Write};
use std::panic::{AssertUnwindSafe, catch_unwind};

pub type Output<'a> = BufWriter<io::StdoutLock<'a>>;

/// The answer, or `None` where the Rust panics.
pub fn asked<T>(f: impl FnOnce() -> T) -> Option<T> {
    catch_unwind(AssertUnwindSafe(f)).ok()
}

pub fn run(words: &[&str]) -> Result<(), String> {
    let mut out = BufWriter::new(io::stdout().lock());
    match words {
        ["encoders", n, seed] => encoders::all(&mut out, number(n)?, number(seed)?, 1 << 16),
        ["encoders", n, seed, limit] => {
            encoders::all(&mut out, number(n)?, number(seed)?, number(limit)?)
        }
        ["imms", n, seed] => imms::all(&mut out, number(n)?, number(seed)?),
        ["generate", n, seed] => generate::all(&mut out, number(n)?, number(seed)?),
        ["overlaps"] => operations::overlaps(&mut out),
        ["tables"] => operations::tables(&mut out),
        ["sample", seed] => encoders::sample(&mut out, number(seed)?),
        ["sample-imms"] => imms::sample(&mut out),
        ["sample-generate", seed] => generate::all(&mut out, 100, number(seed)?),
        _ => return Err(format!("no such subcommand: {}", words.join(" "))),
    }
    .and_then(|()| out.flush())
    .map_err(|e| e.to_string())
}

fn number(word: &str) -> Result<u64, String> {
    word.parse().map_err(|_| format!("no number: {word}"))
}
