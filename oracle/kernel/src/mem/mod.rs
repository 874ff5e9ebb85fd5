//! Stands in for the kernel's memory modules; `virt` is the kernel's own file, unchanged.

pub mod address_space;
mod heap;
pub mod phys;

pub mod virt {
    include!(env!("VIRT_RS"));
}
