//! A kernel's process memory regions and segment manager, for Rust programs: a safe wrapper over the library that is proved in Rattle.
//!
//! [`Machine`] is the machine of processes, regions and frames, [`segments::Manager`] the lone segment manager. Each call takes any
//! arguments and answers with a value or a [`Refusal`]. What is proved is the library's code; this crate only names it, and its
//! tests compare it with the header and, in the oracle, with the kernel's own Rust.
//!
//! ```
//! use jhilkompa::{Machine, Marks, Place, Population, VirtAddr};
//!
//! // A page is written, its process is cloned, and the clone does not see what is written later.
//! let mut machine = Machine::start(2, &[])?;
//! let parent = machine.open(VirtAddr(0x1000), 0x10_0000)?;
//! let child = machine.open(VirtAddr(0x1000), 0x10_0000)?;
//! let page = machine.create_private(parent, Place::Lowest, 0x1000, Population::Lazy, Marks::WRITABLE)?;
//! machine.fault(parent, page, true)?;
//! machine.store(parent, page, 31)?;
//! machine.clone_process(parent, child)?;
//! machine.fault(parent, page, true)?;
//! machine.store(parent, page, 15)?;
//! machine.fault(child, page, false)?;
//! assert_eq!(machine.load(child, page), Ok(31));
//! # Ok::<(), jhilkompa::Refusal>(())
//! ```

#![no_std]

extern crate alloc;

mod address;
#[cfg(has_machine)]
mod answer;
#[cfg(has_machine)]
mod batch;
mod call;
#[cfg(any(has_machine, has_segments))]
pub mod ffi;
#[cfg(has_machine)]
mod machine;
mod refusal;
#[cfg(has_segments)]
pub mod segments;

pub use address::{PAGE_SIZE, Page, PageTableFlags, PhysFrame, USER_END, VirtAddr};
#[cfg(has_machine)]
pub use answer::{Answer, RESULTS};
#[cfg(has_machine)]
pub use batch::{ROW, Room};
pub use call::{CALL_WORDS, Call, CallWords, ForkPolicy, Marks, Part, Place, Population, Process};
#[cfg(has_machine)]
pub use machine::{FRAME_BYTES, File, Machine, Mapping, Memory, WORDS};
pub use refusal::Refusal;
