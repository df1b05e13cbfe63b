//! The oracle's parts: the line protocol, the answers of the Rust original, and the generator of lines.
pub mod answer;
pub mod areas;
pub mod hex;
pub mod protocol;
pub mod refusals;
pub mod report;
pub mod rng;
