//! Those who answer a lone manager's calls: the Rust, a plain one of our own, the proved one.

mod form;
mod plain;
#[cfg(proved_segments)]
mod proved;
mod rust;

pub use plain::PlainManager;
#[cfg(proved_segments)]
pub use proved::ProvedManager;
pub use rust::RustManager;

/// A manager holds this many segments.
pub const SEGMENTS: usize = 64;
