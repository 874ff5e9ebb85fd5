//! The proved machine, by crate `jhilkompa`: beside the Rust's, and on lent memory of whatever lengths.

mod calls;
mod lent;
mod machine;
mod methods;
mod typed;

pub use calls::results;
pub use jhilkompa::RESULTS as LIST;
pub use lent::Lent;
pub use machine::{ProvedMachine, keeps};
pub use typed::{numbered, typed};
