//! The oracle: answers scripts of calls with the kernel's own Rust, and compares others with it.

pub mod answer;
pub mod calls;
pub mod caught;
pub mod compare;
#[cfg(proved_machine)]
pub mod damage;
pub mod generate;
pub mod machine;
pub mod manager;
pub mod plain;
#[cfg(proved_machine)]
pub mod proved;
pub mod random;
pub mod rules;
pub mod script;
pub mod words;
