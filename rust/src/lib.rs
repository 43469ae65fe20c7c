//! The dual-rail library from Rust: safe functions over the static library,
//! the paper once more in Rust, and the comparison of both.

pub mod answer;
pub mod compare;
#[cfg(not(feature = "no-library"))]
pub mod ffi;
pub mod generate;
pub mod lent;
pub mod paper;
pub mod plain;
pub mod random;
pub mod simon;
pub mod vectors;

pub use answer::{Answer, Dualrail, Layout, MapTable, PairTable, Watch, WordSet};

/// The implementation under test.
#[cfg(not(feature = "no-library"))]
pub use ffi::Library;
/// The implementation under test: here the paper itself.
#[cfg(feature = "no-library")]
pub use paper::Paper as Library;
