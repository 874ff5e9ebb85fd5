//! Stands in for the kernel's physical allocator: a pool of up to 256 frames with real bytes, the
//! lowest free frame first, and for several the lowest run that fits.

use alloc::boxed::Box;
use alloc::vec;
use alloc::vec::Vec;
use core::cell::RefCell;
use core::ops::Deref;
use std::thread_local;

use x86_64::PhysAddr;
use x86_64::machine::set_frame_bytes;
use x86_64::structures::paging::frame::PhysFrameRangeInclusive;
use x86_64::structures::paging::{FrameAllocator, PageSize, PhysFrame, Size4KiB};

pub const FRAMES: usize = 256;
pub const FRAME_BYTES: usize = 4096;
/// What a frame holds at the start: no zeros, so that a fill that is left out shows in the answers.
const UNTOUCHED: u8 = 0xa5;

#[repr(C, align(4096))]
struct Frame([u8; FRAME_BYTES]);

struct Pool {
    in_use: Vec<bool>,
    bytes: *mut Frame,
}

thread_local! {
    static POOL: RefCell<Pool> = RefCell::new(Pool::new());
}

impl Pool {
    fn new() -> Self {
        let frames: Vec<Frame> = (0..FRAMES).map(|_| Frame([0; FRAME_BYTES])).collect();
        // The bytes live as long as their thread: pointers into them are handed out.
        let bytes = Box::leak(frames.into_boxed_slice()).as_mut_ptr();
        set_frame_bytes(bytes.cast());
        Self {
            in_use: Vec::new(),
            bytes,
        }
    }

    fn lowest_run(&self, count: usize) -> Option<usize> {
        let last = self.in_use.len().checked_sub(count)?;
        (0..=last).find(|&at| self.in_use[at..at + count].iter().all(|used| !used))
    }

    fn take(&mut self, count: usize) -> Option<PhysFrameRangeInclusive> {
        let at = self.lowest_run(count).filter(|_| count > 0)?;
        self.in_use[at..at + count].fill(true);
        Some(PhysFrameRangeInclusive {
            start: frame(at),
            end: frame(at + count - 1),
        })
    }

    fn give_back(&mut self, frame: PhysFrame) {
        let used = &mut self.in_use[number(frame)];
        assert!(*used, "frame {} freed twice", number(frame));
        *used = false;
    }
}

fn frame(number: usize) -> PhysFrame {
    PhysFrame::containing_address(PhysAddr::new((number * FRAME_BYTES) as u64))
}

/// The number of a frame of the pool.
#[must_use]
pub fn number(frame: PhysFrame) -> usize {
    frame.start_address().as_u64() as usize / FRAME_BYTES
}

/// Starts the pool afresh with `frames` free frames.
pub fn start(frames: usize) {
    POOL.with_borrow_mut(|pool| pool.in_use = vec![false; frames]);
    for frame in 0..frames {
        with_bytes(frame, |bytes| bytes.fill(UNTOUCHED));
    }
}

/// For each frame of the pool, whether it is in use.
#[must_use]
pub fn in_use() -> Vec<bool> {
    POOL.with_borrow(|pool| pool.in_use.clone())
}

/// Whether `count` frames in a row are free.
#[must_use]
pub fn has_run(count: usize) -> bool {
    POOL.with_borrow(|pool| pool.lowest_run(count).is_some())
}

#[must_use]
pub fn free_frames() -> usize {
    POOL.with_borrow(|pool| pool.in_use.iter().filter(|used| !**used).count())
}

/// Gives the bytes of a frame to `f`.
///
/// # Panics
/// If there is no such frame.
pub fn with_bytes<R>(number: usize, f: impl FnOnce(&mut [u8; FRAME_BYTES]) -> R) -> R {
    assert!(number < FRAMES);
    let bytes = POOL.with_borrow(|pool| pool.bytes.wrapping_add(number));
    // SAFETY: the frame is inside the leaked bytes, and no other reference into it is alive: the
    // kernel's own are made and dropped inside one call.
    f(unsafe { &mut (*bytes).0 })
}

pub struct PhysicalMemory;

impl FrameAllocator for PhysicalMemory {}

impl PhysicalMemory {
    #[must_use]
    pub fn allocate_frame<S: PageSize>() -> Option<PhysFrame> {
        POOL.with_borrow_mut(|pool| pool.take(1))
            .map(|run| run.start)
    }

    #[must_use]
    pub fn allocate_frames<S: PageSize>(count: usize) -> Option<OwnedPhysicalMemory> {
        POOL.with_borrow_mut(|pool| pool.take(count))
            .map(OwnedPhysicalMemory)
    }
}

/// Frames that are free again once this is dropped.
#[derive(Debug)]
pub struct OwnedPhysicalMemory(PhysFrameRangeInclusive<Size4KiB>);

impl OwnedPhysicalMemory {
    #[must_use]
    pub fn from_physical_frame(frame: PhysFrame) -> Self {
        Self(PhysFrameRangeInclusive {
            start: frame,
            end: frame,
        })
    }
}

impl Deref for OwnedPhysicalMemory {
    type Target = PhysFrameRangeInclusive<Size4KiB>;

    fn deref(&self) -> &Self::Target {
        &self.0
    }
}

impl Drop for OwnedPhysicalMemory {
    fn drop(&mut self) {
        POOL.with_borrow_mut(|pool| self.0.for_each(|frame| pool.give_back(frame)));
    }
}
