//! A process: the kernel's regions, manager and page table of it, and its pins.

use std::sync::Arc;

use kernel::mcore::mtask::process::SoleLiveTask;
use kernel::mcore::mtask::process::mem::{MemoryRegion, MemoryRegions, probe};
use kernel::mem::address_space::AddressSpace;
use kernel_virtual_memory::VirtualMemoryManager;
use spin::RwLock;
use x86_64::VirtAddr;

use crate::answer::Refusal;

pub struct Process {
    pub arena: (u64, u64),
    pub space: AddressSpace,
    pub regions: MemoryRegions,
    pub vmm: Arc<RwLock<VirtualMemoryManager>>,
    pub pins: Vec<Pin>,
}

/// A pinned region: one handle of it stands for all its pins.
pub struct Pin {
    pub region: Arc<MemoryRegion>,
    pub count: u64,
}

impl Process {
    pub fn open(start: u64, size: u64) -> Self {
        let vmm = VirtualMemoryManager::new(VirtAddr::new(start), size);
        Self {
            arena: (start, size),
            space: AddressSpace::for_process(),
            regions: MemoryRegions::new(),
            vmm: Arc::new(RwLock::new(vmm)),
            pins: Vec::new(),
        }
    }

    pub fn clear(&self) {
        self.regions.clear(&self.space, &SoleLiveTask::default());
    }

    /// The attached region that holds a user address.
    pub fn region_at(&self, addr: u64) -> Result<Arc<MemoryRegion>, Refusal> {
        self.regions
            .region_for(VirtAddr::new(addr))
            .ok_or(Refusal::NoRegion)
    }

    pub fn attached(&self) -> Vec<Arc<MemoryRegion>> {
        probe::regions(&self.regions)
    }

    /// The pinned regions that the list no longer has, by start.
    pub fn detached(&self) -> Vec<Arc<MemoryRegion>> {
        let attached = self.attached();
        let is_attached = |r: &Arc<MemoryRegion>| attached.iter().any(|a| Arc::ptr_eq(a, r));
        let pinned = self.pins.iter().map(|pin| pin.region.clone());
        let mut detached: Vec<_> = pinned.filter(|region| !is_attached(region)).collect();
        detached.sort_by_key(|region| region.addr());
        detached
    }

    pub fn pin_count(&self, region: &Arc<MemoryRegion>) -> u64 {
        let pin = self
            .pins
            .iter()
            .find(|pin| Arc::ptr_eq(&pin.region, region));
        pin.map_or(0, |pin| pin.count)
    }

    /// Region slots in use: attached and detached regions.
    pub fn slots(&self) -> usize {
        self.attached().len() + self.detached().len()
    }

    pub fn entries(&self) -> usize {
        let all = self.attached().into_iter().chain(self.detached());
        all.map(|region| probe::see(&region).pages.len()).sum()
    }
}
