//! A second implementation of the `verdict` program in plain Rust, written from `docs/` alone.
//!
//! It shares no code with the crates of this repository. The same input must give the same bytes
//! of output; `compare` looks for inputs on which it does not.

pub mod added;
pub mod book;
pub mod case;
pub mod certify;
pub mod fields;
pub mod generating;
pub mod judging;
pub mod listing;
pub mod mps;
pub mod text;
