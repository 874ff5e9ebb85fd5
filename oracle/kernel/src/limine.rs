//! Stands in for the boot loader's answers, which the kernel's `virt::init` reads.

use limine::memory_map::EntryType;

/// A request that the boot loader has answered.
pub struct Request<T>(T);

impl<T> Request<T> {
    pub fn get_response(&self) -> Option<&T> {
        Some(&self.0)
    }
}

pub struct Hhdm;

impl Hhdm {
    pub fn offset(&self) -> u64 {
        0xffff_8000_0000_0000
    }
}

pub struct KernelAddress;

impl KernelAddress {
    pub fn virtual_base(&self) -> u64 {
        0xffff_ffff_8000_0000
    }
}

pub struct MemoryMap;

pub struct Entry {
    pub base: u64,
    pub length: u64,
    pub entry_type: EntryType,
}

impl MemoryMap {
    /// One module of one page, so that each step of `init` has something to do.
    pub fn entries(&self) -> &'static [Entry] {
        &[Entry {
            base: 0,
            length: 4096,
            entry_type: EntryType::EXECUTABLE_AND_MODULES,
        }]
    }
}

pub static HHDM_REQUEST: Request<Hhdm> = Request(Hhdm);
pub static KERNEL_ADDRESS_REQUEST: Request<KernelAddress> = Request(KernelAddress);
pub static MEMORY_MAP_REQUEST: Request<MemoryMap> = Request(MemoryMap);
