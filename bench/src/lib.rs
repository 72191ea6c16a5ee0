//! A twin of the compartment runtime in plain Rust, by docs/RULES.md, and a generator of scripts and
//! histories: the other side of differential tests, and the baseline of benchmarks.

pub mod random;
pub mod twin;
