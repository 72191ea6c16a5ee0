//! Prints a random script: `generate deep|damaged SEED CALLS`.

use celimbuk_bench::random::{script, Random};
use std::io::{self, Write};
use std::process::ExitCode;

fn main() -> ExitCode {
    let words: Vec<String> = std::env::args().skip(1).collect();
    match generate(&words) {
        Some(script) if io::stdout().write_all(&script).is_ok() => ExitCode::SUCCESS,
        Some(_) => ExitCode::FAILURE,
        None => {
            eprintln!("usage: generate deep|damaged SEED CALLS");
            ExitCode::from(2)
        }
    }
}

fn generate(words: &[String]) -> Option<Vec<u8>> {
    let [kind, seed, calls] = words else { return None };
    let mut random = Random::new(seed.parse().ok()?);
    let calls = calls.parse().ok()?;
    match kind.as_str() {
        "deep" => Some(script::deep(&mut random, calls)),
        "damaged" => Some(script::damaged(&mut random, calls)),
        _ => None,
    }
}
