//! Loads and stores of one byte, through the process's page table.

use kernel::mem::phys::{self, FRAME_BYTES};
use x86_64::VirtAddr;
use x86_64::structures::paging::PageTableFlags;

use super::{Machine, form};
use crate::answer::{Answer, Refusal};

impl Machine {
    pub(super) fn load(&self, p: u64, addr: u64) -> Result<Answer, Refusal> {
        let (frame, at) = self.granted(p, addr, PageTableFlags::USER_ACCESSIBLE)?;
        let byte = phys::with_bytes(frame, |bytes| bytes[at]);
        Ok(Answer::count(byte.into()))
    }

    pub(super) fn store(&self, p: u64, addr: u64, byte: u8) -> Result<Answer, Refusal> {
        let rights = PageTableFlags::USER_ACCESSIBLE | PageTableFlags::WRITABLE;
        let (frame, at) = self.granted(p, addr, rights)?;
        phys::with_bytes(frame, |bytes| bytes[at] = byte);
        Ok(Answer::done())
    }

    /// The frame and the place in it, if the page is mapped with these rights.
    pub(super) fn granted(
        &self,
        p: u64,
        addr: u64,
        rights: PageTableFlags,
    ) -> Result<(usize, usize), Refusal> {
        let process = self.process(p)?;
        form::user(addr)?;
        let addr = VirtAddr::new(addr);
        let flags = process.space.translate_flags(addr);
        flags
            .filter(|flags| flags.contains(rights))
            .ok_or(Refusal::Denied)?;
        let place = process
            .space
            .translate(addr)
            .ok_or(Refusal::Denied)?
            .as_u64() as usize;
        Ok((place / FRAME_BYTES, place % FRAME_BYTES))
    }
}
