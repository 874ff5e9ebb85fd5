//! What the stand-ins decide, said as tests.

use std::panic::catch_unwind;

use kernel::mem::phys::{self, OwnedPhysicalMemory, PhysicalMemory};
use x86_64::VirtAddr;
use x86_64::structures::paging::{Page, Size4KiB};

const HALF: u64 = 1 << 47;

fn page(addr: u64) -> Page {
    Page::containing_address(VirtAddr::new(addr))
}

#[test]
fn an_address_is_canonical() {
    for good in [0, HALF - 1, 0xffff_8000_0000_0000, u64::MAX] {
        assert!(VirtAddr::try_new(good).is_ok());
    }
    for bad in [HALF, 1 << 63, 0xffff_7fff_ffff_ffff] {
        assert!(VirtAddr::try_new(bad).is_err());
        assert!(catch_unwind(|| VirtAddr::new(bad)).is_err());
    }
}

#[test]
fn a_page_range_ends_at_the_end_of_its_half() {
    for last in [HALF - 4096, u64::MAX - 4095] {
        let pages: Vec<Page> = Page::range_inclusive(page(last - 4096), page(last)).collect();
        assert_eq!(pages, [page(last - 4096), page(last)]);
    }
    assert_eq!(Page::range_inclusive(page(0), page(0)).count(), 1);
    assert_eq!(Page::range_inclusive(page(4096), page(0)).count(), 0);
}

#[test]
fn a_page_range_does_not_cross_the_halves() {
    let mut pages = Page::range_inclusive(page(HALF - 4096), page(0xffff_8000_0000_0000));
    assert!(catch_unwind(move || pages.next()).is_err());
}

fn take(count: usize) -> Option<OwnedPhysicalMemory> {
    PhysicalMemory::allocate_frames::<Size4KiB>(count)
}

#[test]
fn frames_come_lowest_first_and_runs_lowest_that_fit() {
    phys::start(6);
    let first = take(1).expect("a frame is free");
    let second = take(2).expect("a run is free");
    assert_eq!(
        (phys::number(first.start), phys::number(second.start)),
        (0, 1)
    );
    drop(first);
    let run = take(2).expect("a run is free");
    assert_eq!(phys::number(run.start), 3);
    assert!(take(2).is_none() && phys::free_frames() == 2);
    let frame = PhysicalMemory::allocate_frame::<Size4KiB>().expect("a frame is free");
    assert_eq!(phys::number(frame), 0);
    drop((second, run, OwnedPhysicalMemory::from_physical_frame(frame)));
    assert_eq!(phys::free_frames(), 6);
}
