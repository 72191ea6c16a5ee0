//! The rules of the compartment runtime in plain Rust. Nothing here is proved.

pub mod allocator;
pub mod authority;
pub mod best_fit;
pub mod bits;
pub mod call;
pub mod fault;
pub mod flat;
pub mod machine;
pub mod memory;
pub mod next_fit;
pub mod paged;
pub mod quarantine;
pub mod quota;
pub mod reader;
pub mod run;

/// Bytes of a granule.
pub const GRANULE: usize = 16;

/// The greatest number of granules of a part.
pub const MOST_GRANULES: usize = 1024;

/// Whether a part may have this many granules.
pub fn is_size(granules: usize) -> bool {
    granules.is_multiple_of(16) && (16..=MOST_GRANULES).contains(&granules)
}
