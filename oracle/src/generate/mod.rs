//! Random scripts, dense at the edges.

mod machine;
mod manager;

pub use machine::MachineScript;
pub use manager::ManagerScript;
