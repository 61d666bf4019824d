//! Calls on the carried Rust: made, run and written down.

pub mod answers;
pub mod bench;
pub mod causes;
pub mod coverage;
pub mod document;
pub mod edges;
pub mod ends;
pub mod flags;
pub mod generate;
pub mod generate_windows;
pub mod random;
pub mod rust;
pub mod sample;
pub mod sample_file;
pub mod second;
pub mod text;
pub mod windows;
