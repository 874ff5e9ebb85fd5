//! The machine of processes, regions and frames, as a value that owns its memory.

use alloc::boxed::Box;
use alloc::vec;
use alloc::vec::Vec;
use core::fmt;
use core::ops::Range;

use crate::address::{Page, PageTableFlags, PhysFrame, VirtAddr};
use crate::answer::{Answer, RESULTS, byte, starts};
use crate::call::{Call, Marks, Part, Place, Population, Process};
use crate::ffi::machine as c;
use crate::refusal::{Refusal, settle};

/// The words of a machine's tables.
pub const WORDS: usize = 11_844;

/// The bytes of a frame.
pub const FRAME_BYTES: usize = 4096;

/// A file that a machine is given, which it never changes.
#[derive(Clone, Copy, Debug, PartialEq, Eq)]
pub struct File<'a> {
    /// Whether it can be read; a fault on a page of one that cannot be is refused `ReadFailed`.
    pub readable: bool,
    /// What is in it.
    pub bytes: &'a [u8],
}

/// A mapped page of a process: what a kernel copies into the processor's page tables.
#[derive(Clone, Copy, Debug, PartialEq, Eq)]
pub struct Mapping {
    /// The page.
    pub page: Page,
    /// The frame that it is mapped to.
    pub frame: PhysFrame,
    /// With these flags.
    pub flags: PageTableFlags,
}

/// A machine's memory, lent to [`ffi`](crate::ffi): what is written there is tested by the next call.
#[derive(Debug)]
pub struct Memory<'a> {
    /// The tables.
    pub words: &'a mut [u64],
    /// The bytes of the frames, one frame after the other.
    pub frames: &'a mut [u8],
    /// The bytes of the files.
    pub files: &'a [u8],
}

/// Processes, their regions and pages, and the frames and files behind them.
///
/// Each call tests the machine first, does what docs/RULES.md says, and answers. A refusal has changed nothing, but that
/// [`carve`](Self::carve), [`populate`](Self::populate), [`eager`](Self::eager) and [`clone_process`](Self::clone_process) keep what
/// they did before it. Nothing else writes to a machine's memory, so a machine that was started stays sound: `BadTable` is not
/// answered by it.
///
/// ```
/// use jhilkompa::{Machine, Marks, Place, Population, Refusal, VirtAddr};
///
/// let mut machine = Machine::start(4, &[])?;
/// let process = machine.open(VirtAddr(0x1000), 0x10_0000)?;
/// let start = machine.create_private(process, Place::Lowest, 0x2000, Population::Lazy, Marks::WRITABLE)?;
/// assert_eq!(machine.load(process, start), Err(Refusal::Denied)); // nothing is mapped yet
/// machine.fault(process, start, true)?;
/// machine.store(process, start, 7)?;
/// assert_eq!(machine.load(process, start), Ok(7));
/// # Ok::<(), Refusal>(())
/// ```
#[derive(PartialEq, Eq)]
pub struct Machine {
    words: Box<[u64; WORDS]>,
    frames: Vec<u8>,
    files: Vec<u8>,
}

impl Machine {
    /// An empty machine with so many zeroed frames and these files.
    ///
    /// ```
    /// use jhilkompa::{File, Machine, Refusal};
    ///
    /// let file = File { readable: true, bytes: b"what a region shows" };
    /// assert!(Machine::start(256, &[file]).is_ok());
    /// assert_eq!(Machine::start(257, &[]).err(), Some(Refusal::BadTable));
    /// ```
    ///
    /// # Errors
    /// `BadTable` for more than 256 frames or 8 files.
    pub fn start(frames: usize, files: &[File<'_>]) -> Result<Self, Refusal> {
        let bytes = frames.checked_mul(FRAME_BYTES).filter(|_| frames <= 256);
        Self::start_on(vec![0; bytes.ok_or(Refusal::BadTable)?], files)
    }

    /// The same over frames that hold these bytes, which stay until a page gets the frame.
    ///
    /// # Errors
    /// `BadTable` where they are no 0 to 256 frames of 4,096 bytes, or for more than 8 files.
    pub fn start_on(frames: Vec<u8>, files: &[File<'_>]) -> Result<Self, Refusal> {
        let (mut rows, mut bytes) = (Vec::new(), Vec::new());
        for file in files {
            rows.extend([
                file.readable.into(),
                bytes.len() as u64,
                file.bytes.len() as u64,
            ]);
            bytes.extend_from_slice(file.bytes);
        }
        let mut words = empty();
        settle(c::machine_start(&mut words[..], &frames, &bytes, &rows))?;
        Ok(Self {
            words,
            frames,
            files: bytes,
        })
    }

    /// The machine in this memory, as [`into_memory`](Self::into_memory) gave it.
    ///
    /// # Errors
    /// `BadTable` where it is not sound.
    pub fn from_memory(
        words: Box<[u64; WORDS]>,
        frames: Vec<u8>,
        files: Vec<u8>,
    ) -> Result<Self, Refusal> {
        let machine = Self {
            words,
            frames,
            files,
        };
        if machine.is_sound() {
            Ok(machine)
        } else {
            Err(Refusal::BadTable)
        }
    }

    /// Its words, the bytes of its frames and those of its files.
    #[must_use]
    pub fn into_memory(self) -> (Box<[u64; WORDS]>, Vec<u8>, Vec<u8>) {
        (self.words, self.frames, self.files)
    }

    /// Its memory, for [`ffi`](crate::ffi).
    pub fn memory(&mut self) -> Memory<'_> {
        Memory {
            words: &mut self.words[..],
            frames: &mut self.frames,
            files: &self.files,
        }
    }

    /// Its words: the tables of `model: Layout`.
    #[must_use]
    pub fn words(&self) -> &[u64; WORDS] {
        &self.words
    }

    /// The bytes of its frames, one frame after the other.
    #[must_use]
    pub fn frames(&self) -> &[u8] {
        &self.frames
    }

    /// Whether R1 to R6 of docs/RULES.md hold; always, unless something wrote to [`memory`](Self::memory).
    #[must_use]
    pub fn is_sound(&self) -> bool {
        c::machine_sound(&self.words[..], &self.frames, &self.files) == 0
    }

    /// Opens the lowest closed process, with an arena of `size` bytes from `start` on.
    ///
    /// # Errors
    /// `BadAddress`, `BadRange`, and `TableFull` where all 8 are open.
    pub fn open(&mut self, start: VirtAddr, size: u64) -> Result<Process, Refusal> {
        self.one(|words, frames, files, out| {
            c::machine_open(words, frames, files, start.0, size, out)
        })
        .map(Process)
    }

    /// Removes all regions of a process and closes it.
    ///
    /// # Errors
    /// `NoProcess`, and `InUse` while a region is pinned.
    pub fn close(&mut self, process: Process) -> Result<(), Refusal> {
        settle(c::machine_close(
            &mut self.words[..],
            &self.frames,
            &self.files,
            process.0,
        ))
    }

    /// Creates a private region of `size` bytes, zeros, and answers its start.
    ///
    /// # Errors
    /// `NoProcess`, `BadAddress`, `BadRange`, `BadFlags`, `NoSpace`, `SegmentReserved`, `OutOfMemory`, `TableFull`.
    pub fn create_private(
        &mut self,
        process: Process,
        place: Place,
        size: u64,
        population: Population,
        marks: Marks,
    ) -> Result<VirtAddr, Refusal> {
        let ((given, start), [flags, copy, thread], eager) =
            (place.words(), marks.words(), population.word());
        let placed = self.one(|words, frames, files, out| {
            c::machine_create_private(
                words, frames, files, process.0, given, start, size, flags, copy, thread, eager,
                out,
            )
        });
        placed.map(VirtAddr)
    }

    /// Creates a private region of `size` bytes that begins with a part of a file and goes on with zeros, and answers its start.
    ///
    /// # Errors
    /// Those of a private region, and `NoFile`; never `OutOfMemory`.
    pub fn create_file(
        &mut self,
        process: Process,
        place: Place,
        size: u64,
        marks: Marks,
        part: Part,
    ) -> Result<VirtAddr, Refusal> {
        let ((given, start), [flags, copy, thread]) = (place.words(), marks.words());
        let Part { file, offset, len } = part;
        let placed = self.one(|words, frames, files, out| {
            c::machine_create_file(
                words, frames, files, process.0, given, start, size, flags, copy, thread, file,
                offset, len, out,
            )
        });
        placed.map(VirtAddr)
    }

    /// Creates a shared region of `size` bytes, zeros, and answers its start: its clones have its frames for good.
    ///
    /// ```
    /// use jhilkompa::{Machine, Place, Refusal, VirtAddr};
    ///
    /// let mut machine = Machine::start(2, &[])?;
    /// let process = machine.open(VirtAddr(0x1000), 0x10_0000)?;
    /// assert_eq!(machine.create_shared(process, Place::Lowest, 0x1001), Ok(VirtAddr(0x1000)));
    /// assert_eq!(machine.create_shared(process, Place::Lowest, 1), Err(Refusal::OutOfMemory));
    /// # Ok::<(), Refusal>(())
    /// ```
    ///
    /// # Errors
    /// `NoProcess`, `BadAddress`, `BadRange`, `NoSpace`, `SegmentReserved`, `OutOfMemory`, `TableFull`.
    pub fn create_shared(
        &mut self,
        process: Process,
        place: Place,
        size: u64,
    ) -> Result<VirtAddr, Refusal> {
        let (given, start) = place.words();
        let placed = self.one(|words, frames, files, out| {
            c::machine_create_shared(words, frames, files, process.0, given, start, size, out)
        });
        placed.map(VirtAddr)
    }

    /// Takes the region at an address out of its process and unmaps its pages. A pinned one stays, detached: it keeps its frames
    /// and its addresses until its last unpin.
    ///
    /// # Errors
    /// `NoProcess`, `BadAddress`, `NoRegion`.
    pub fn remove(&mut self, process: Process, addr: VirtAddr) -> Result<(), Refusal> {
        settle(c::machine_remove(
            &mut self.words[..],
            &self.frames,
            &self.files,
            process.0,
            addr.0,
        ))
    }

    /// Does so with all regions of a process.
    ///
    /// # Errors
    /// `NoProcess`.
    pub fn clear(&mut self, process: Process) -> Result<(), Refusal> {
        settle(c::machine_clear(
            &mut self.words[..],
            &self.frames,
            &self.files,
            process.0,
        ))
    }

    /// Splits the regions that cross a bound of the range, which is in whole pages below 2^47, and answers the starts of those that
    /// lie inside.
    ///
    /// # Errors
    /// `NoProcess`, `BadRange`; at a region `EagerBacking`, `Shared`, `InUse`, `TableFull`, and the splits before it stay.
    pub fn carve(&mut self, process: Process, range: Range<u64>) -> Result<Vec<VirtAddr>, Refusal> {
        let mut out = [0; RESULTS];
        let (words, frames, files) = (&mut self.words[..], &self.frames, &self.files);
        settle(c::machine_carve(
            words,
            frames,
            files,
            process.0,
            range.start,
            range.end,
            &mut out,
        ))?;
        Ok(starts(&out))
    }

    /// The start of the attached region at an address.
    ///
    /// # Errors
    /// `NoProcess`, `BadAddress`, `NoRegion`.
    pub fn region(&self, process: Process, addr: VirtAddr) -> Result<VirtAddr, Refusal> {
        self.look(|words, frames, files, out| {
            c::machine_region(words, frames, files, process.0, addr.0, out)
        })
        .map(VirtAddr)
    }

    /// The starts of the attached regions of a process, in list order.
    ///
    /// # Errors
    /// `NoProcess`.
    pub fn regions(&self, process: Process) -> Result<Vec<VirtAddr>, Refusal> {
        let mut out = [0; RESULTS];
        settle(c::machine_regions(
            &self.words[..],
            &self.frames,
            &self.files,
            process.0,
            &mut out,
        ))?;
        Ok(starts(&out))
    }

    /// Whether every address of the range lies in an attached region.
    ///
    /// # Errors
    /// `NoProcess`.
    pub fn covers(&self, process: Process, range: Range<u64>) -> Result<bool, Refusal> {
        let covered = self.look(|words, frames, files, out| {
            c::machine_covers(words, frames, files, process.0, range.start, range.end, out)
        });
        covered.map(|covered| covered == 1)
    }

    /// Has the page of an address in place for a read, or for a write: maps it, and fills or copies a frame where it must.
    ///
    /// # Errors
    /// `NoProcess`, `BadAddress`, `NoRegion`, `NotAccessible`, `NotWritable`, `OutOfMemory`, `ReadFailed`, `MapFailed`, `TableFull`.
    pub fn fault(&mut self, process: Process, addr: VirtAddr, write: bool) -> Result<(), Refusal> {
        let (words, frames, files) = (&mut self.words[..], &mut self.frames, &self.files);
        settle(c::machine_fault(
            words,
            frames,
            files,
            process.0,
            addr.0,
            write.into(),
        ))
    }

    /// Does so for each page of `len` bytes from `addr` on that lies in a region, in rising order.
    ///
    /// # Errors
    /// `NoProcess`, `BadAddress`, `BadRange`; at a page those of a fault, and the pages before it stay.
    pub fn populate(
        &mut self,
        process: Process,
        addr: VirtAddr,
        len: u64,
        write: bool,
    ) -> Result<(), Refusal> {
        let (words, frames, files) = (&mut self.words[..], &mut self.frames, &self.files);
        settle(c::machine_populate(
            words,
            frames,
            files,
            process.0,
            addr.0,
            len,
            write.into(),
        ))
    }

    /// Does so, for a write, with every private region that is copied at fork.
    ///
    /// # Errors
    /// `NoProcess`; at a page those of a fault, and the pages before it stay.
    pub fn eager(&mut self, process: Process) -> Result<(), Refusal> {
        settle(c::machine_eager(
            &mut self.words[..],
            &mut self.frames,
            &self.files,
            process.0,
        ))
    }

    /// Gives process `target` a clone of the region at an address, at the same addresses: it shares all frames, and both sides may
    /// only read them from now on, or it copies each (see [`ForkPolicy`](crate::ForkPolicy)).
    ///
    /// # Errors
    /// `NoProcess`, `BadAddress`, `NoRegion`, then `SegmentReserved`, `TableFull` and `OutOfMemory` in this order.
    pub fn clone_region(
        &mut self,
        process: Process,
        addr: VirtAddr,
        target: Process,
    ) -> Result<(), Refusal> {
        let (words, frames, files) = (&mut self.words[..], &mut self.frames, &self.files);
        settle(c::machine_clone_region(
            words, frames, files, process.0, addr.0, target.0,
        ))
    }

    /// Does so with every region of a process that is not a thread's own: fork.
    ///
    /// # Errors
    /// `NoProcess`; at a region `SegmentReserved`, `TableFull` and `OutOfMemory`, and the clones before it stay.
    pub fn clone_process(&mut self, process: Process, target: Process) -> Result<(), Refusal> {
        settle(c::machine_clone(
            &mut self.words[..],
            &mut self.frames,
            &self.files,
            process.0,
            target.0,
        ))
    }

    /// Gives the region at an address other flags, and its mapped pages too, read-only where a frame has more than one holder.
    ///
    /// # Errors
    /// `NoProcess`, `BadAddress`, `BadFlags`, `NoRegion`, `UnsupportedRegion`.
    pub fn protect(
        &mut self,
        process: Process,
        addr: VirtAddr,
        flags: PageTableFlags,
    ) -> Result<(), Refusal> {
        settle(c::machine_protect(
            &mut self.words[..],
            &self.frames,
            &self.files,
            process.0,
            addr.0,
            flags.0,
        ))
    }

    /// Pins the region at an address once more.
    ///
    /// # Errors
    /// `NoProcess`, `BadAddress`, `NoRegion`, and `TableFull` with 65,535 pins.
    pub fn pin(&mut self, process: Process, addr: VirtAddr) -> Result<(), Refusal> {
        settle(c::machine_pin(
            &mut self.words[..],
            &self.frames,
            &self.files,
            process.0,
            addr.0,
        ))
    }

    /// Takes a pin off the region at an address, a detached one too, which goes with its last.
    ///
    /// # Errors
    /// `NoProcess`, `BadAddress`, and `NoRegion` where there is no pin.
    pub fn unpin(&mut self, process: Process, addr: VirtAddr) -> Result<(), Refusal> {
        settle(c::machine_unpin(
            &mut self.words[..],
            &self.frames,
            &self.files,
            process.0,
            addr.0,
        ))
    }

    /// The byte at an address.
    ///
    /// # Errors
    /// `NoProcess`, `BadAddress`, and `Denied` without the right.
    pub fn load(&self, process: Process, addr: VirtAddr) -> Result<u8, Refusal> {
        self.look(|words, frames, files, out| {
            c::machine_load(words, frames, files, process.0, addr.0, out)
        })
        .map(byte)
    }

    /// Puts a byte at an address.
    ///
    /// # Errors
    /// `NoProcess`, `BadAddress`, and `Denied` without the right.
    pub fn store(&mut self, process: Process, addr: VirtAddr, byte: u8) -> Result<(), Refusal> {
        settle(c::machine_store(
            &self.words[..],
            &mut self.frames,
            &self.files,
            process.0,
            addr.0,
            byte,
        ))
    }

    /// Any call as a value.
    ///
    /// ```
    /// use jhilkompa::{Answer, Call, Machine, Process, Refusal, VirtAddr};
    ///
    /// let mut machine = Machine::start(0, &[])?;
    /// let open = Call::Open { start: VirtAddr(0), size: 0x1000 };
    /// assert_eq!(machine.call(&open), Ok(Answer::Opened(Process(0))));
    /// assert_eq!(machine.call(&Call::Clear { process: Process(1) }), Err(Refusal::NoProcess));
    /// # Ok::<(), Refusal>(())
    /// ```
    ///
    /// # Errors
    /// Those of the method of its name.
    pub fn call(&mut self, call: &Call) -> Result<Answer, Refusal> {
        let mut out = [0; RESULTS];
        let (words, frames, files) = (&mut self.words[..], &mut self.frames, &self.files);
        settle(c::machine_call(
            words,
            frames,
            files,
            call.words().as_slice(),
            &mut out,
        ))?;
        Ok(Answer::read(call, &out))
    }

    /// The mapped pages of a process, in page order; none where it is not open.
    ///
    /// ```
    /// use jhilkompa::{Machine, Marks, Page, Place, Population, Refusal, VirtAddr};
    ///
    /// let mut machine = Machine::start(4, &[])?;
    /// let process = machine.open(VirtAddr(0x1000), 0x10_0000)?;
    /// machine.create_private(process, Place::Lowest, 0x2000, Population::Lazy, Marks::WRITABLE)?;
    /// machine.fault(process, VirtAddr(0x2fff), true)?;
    /// let pages: Vec<Page> = machine.mapped(process).map(|mapping| mapping.page).collect();
    /// assert_eq!(pages, [Page(2)]);
    /// # Ok::<(), Refusal>(())
    /// ```
    pub fn mapped(&self, process: Process) -> impl Iterator<Item = Mapping> {
        let number = usize::try_from(process.0)
            .ok()
            .filter(|number| *number < PROCESSES);
        let rows = number.map_or(&[][..], |number| {
            let first = MAPPED_FIRST + number * MAPPED_PAGES * MAPPED_WORDS;
            let count =
                self.words[number * PROCESS_WORDS + PROCESS_MAPPED].min(MAPPED_PAGES as u64);
            &self.words[first..first + count as usize * MAPPED_WORDS]
        });
        rows.chunks_exact(MAPPED_WORDS).map(|row| Mapping {
            page: Page(row[0]),
            frame: PhysFrame(row[1]),
            flags: PageTableFlags(row[2]),
        })
    }

    /// The bytes of a frame, if there is one of this number.
    #[must_use]
    pub fn frame(&self, frame: PhysFrame) -> Option<&[u8]> {
        let number = usize::try_from(frame.0).ok()?;
        self.frames.chunks_exact(FRAME_BYTES).nth(number)
    }

    /// One result of a call that changes something.
    fn one(
        &mut self,
        call: impl FnOnce(&mut [u64], &mut [u8], &[u8], &mut [u64]) -> u64,
    ) -> Result<u64, Refusal> {
        let mut out = [0];
        settle(call(
            &mut self.words[..],
            &mut self.frames,
            &self.files,
            &mut out,
        ))?;
        Ok(out[0])
    }

    /// One result of a call that looks.
    fn look(
        &self,
        call: impl FnOnce(&[u64], &[u8], &[u8], &mut [u64]) -> u64,
    ) -> Result<u64, Refusal> {
        let mut out = [0];
        settle(call(&self.words[..], &self.frames, &self.files, &mut out))?;
        Ok(out[0])
    }
}

// Where the rows of mapped pages stand (`model: Layout`): 128 rows of three words for each of 8 processes, and how many of them are
// in use as the last of the five words of the process's row.
const PROCESSES: usize = 8;
const PROCESS_WORDS: usize = 5;
const PROCESS_MAPPED: usize = 4;
const MAPPED_FIRST: usize = 6_696;
const MAPPED_PAGES: usize = 128;
const MAPPED_WORDS: usize = 3;

/// Words of zeros, made where they stay.
fn empty() -> Box<[u64; WORDS]> {
    vec![0; WORDS]
        .into_boxed_slice()
        .try_into()
        .expect("as many words as a machine has")
}

impl Clone for Machine {
    fn clone(&self) -> Self {
        Self {
            words: self.words.clone(),
            frames: self.frames.clone(),
            files: self.files.clone(),
        }
    }

    /// Into the memory that is there: a machine may have a megabyte of frames.
    fn clone_from(&mut self, other: &Self) {
        self.words.copy_from_slice(&other.words[..]);
        self.frames.clone_from(&other.frames);
        self.files.clone_from(&other.files);
    }
}

impl fmt::Debug for Machine {
    /// Its sizes: its tables are too long to be read so.
    fn fmt(&self, f: &mut fmt::Formatter<'_>) -> fmt::Result {
        let mut fields = f.debug_struct("Machine");
        fields.field("frames", &(self.frames.len() / FRAME_BYTES));
        fields
            .field("file_bytes", &self.files.len())
            .finish_non_exhaustive()
    }
}
