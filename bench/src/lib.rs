//! A second decoder of H.263 macroblock records, in plain Rust and written from the pages in `docs/` alone, and what it takes to hold it against the
//! proved one: random lists of calls, a player of scripts, and a wrapper around the proved library.

pub mod answers;
pub mod damage;
pub mod filter;
pub mod lists;
pub mod motion;
pub mod pictures;
pub mod random;
pub mod rebuild;
pub mod records;
pub mod reel;
pub mod script;
pub mod transform;
pub mod writer;

#[cfg(feature = "library")]
pub mod library;
