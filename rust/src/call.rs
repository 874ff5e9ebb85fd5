//! A call as a value, under the names of crate `model`, and as the words that the library takes.

use core::ops::Range;

use crate::address::{PageTableFlags, VirtAddr};

/// The number of a process, as [`Machine::open`](crate::Machine::open) answers it.
#[derive(Clone, Copy, Debug, PartialEq, Eq, PartialOrd, Ord, Hash)]
#[repr(transparent)]
pub struct Process(pub u64);

/// Where creation puts a region.
#[derive(Clone, Copy, Debug, PartialEq, Eq)]
pub enum Place {
    /// At this start, which must be free.
    At(VirtAddr),
    /// At the lowest free start of the process's arena.
    Lowest,
}

/// What fork does with a region's pages.
#[derive(Clone, Copy, Debug, PartialEq, Eq)]
pub enum ForkPolicy {
    /// They are shared, and copied when one side writes.
    CopyOnWrite,
    /// They are copied at once.
    CopyEager,
}

/// When a private region gets its frames.
#[derive(Clone, Copy, Debug, PartialEq, Eq)]
pub enum Population {
    /// Page by page, at the first use of each.
    Lazy,
    /// All when it is created: a run of zeroed frames.
    Eager,
}

/// What a private or a file's region is created with.
#[derive(Clone, Copy, Debug, PartialEq, Eq)]
pub struct Marks {
    /// The flags of its pages.
    pub flags: PageTableFlags,
    /// What fork does with it.
    pub fork: ForkPolicy,
    /// Whether it is one thread's own, which the clone of a process leaves out.
    pub thread: bool,
}

impl Marks {
    /// A region that may be read and written, is copied when one side writes, and belongs to all threads.
    pub const WRITABLE: Self = Self {
        flags: PageTableFlags(7),
        fork: ForkPolicy::CopyOnWrite,
        thread: false,
    };
}

/// The part of a file that a region shows.
#[derive(Clone, Copy, Debug, PartialEq, Eq)]
pub struct Part {
    /// The file's number, in the order in which the machine was given them.
    pub file: u64,
    /// Where the part begins in it.
    pub offset: u64,
    /// How many bytes it is; what the region has beyond is zeros.
    pub len: u64,
}

/// A call of the machine; start is not among them, for it makes a machine. What each does stands at the method
/// of its name, and its fields are that method's arguments.
#[derive(Clone, Debug, PartialEq, Eq)]
#[allow(missing_docs)]
pub enum Call {
    /// Whether the machine is sound: `is_sound`.
    Sound,
    /// Opens a process.
    Open { start: VirtAddr, size: u64 },
    /// Closes a process.
    Close { process: Process },
    /// Creates a private region.
    CreatePrivate {
        process: Process,
        place: Place,
        size: u64,
        population: Population,
        marks: Marks,
    },
    /// Creates a region that shows a file.
    CreateFile {
        process: Process,
        place: Place,
        size: u64,
        marks: Marks,
        part: Part,
    },
    /// Creates a shared region.
    CreateShared {
        process: Process,
        place: Place,
        size: u64,
    },
    /// Removes a region.
    Remove { process: Process, addr: VirtAddr },
    /// Removes all regions of a process.
    Clear { process: Process },
    /// Splits regions at the bounds of a range.
    Carve { process: Process, range: Range<u64> },
    /// Whether a range is covered.
    Covers { process: Process, range: Range<u64> },
    /// The region at an address.
    Region { process: Process, addr: VirtAddr },
    /// The regions of a process.
    Regions { process: Process },
    /// A page fault.
    Fault {
        process: Process,
        addr: VirtAddr,
        write: bool,
    },
    /// Faults over a range.
    Populate {
        process: Process,
        addr: VirtAddr,
        len: u64,
        write: bool,
    },
    /// Faults over all regions that are copied at fork.
    Eager { process: Process },
    /// Clones a region into another process.
    CloneRegion {
        process: Process,
        addr: VirtAddr,
        target: Process,
    },
    /// Clones a process into another: `clone_process`.
    Clone { process: Process, target: Process },
    /// Gives a region other flags.
    Protect {
        process: Process,
        addr: VirtAddr,
        flags: PageTableFlags,
    },
    /// Pins a region.
    Pin { process: Process, addr: VirtAddr },
    /// Takes a pin off a region.
    Unpin { process: Process, addr: VirtAddr },
    /// Loads a byte.
    Load { process: Process, addr: VirtAddr },
    /// Stores a byte.
    Store {
        process: Process,
        addr: VirtAddr,
        byte: u8,
    },
}

/// The most words of a call: its number and ten arguments.
pub const CALL_WORDS: usize = 11;

/// A call as words: its number, then its arguments (include/machine.h).
#[derive(Clone, Copy, Debug, PartialEq, Eq)]
pub struct CallWords {
    words: [u64; CALL_WORDS],
    len: usize,
}

impl CallWords {
    fn new<const N: usize>(number: u64, arguments: [u64; N]) -> Self {
        let mut words = [0; CALL_WORDS];
        words[0] = number;
        words[1..=N].copy_from_slice(&arguments);
        Self { words, len: N + 1 }
    }

    /// The number and exactly the call's arguments.
    #[must_use]
    pub fn as_slice(&self) -> &[u64] {
        &self.words[..self.len]
    }

    /// The number and ten arguments, zeros behind those that the call has.
    #[must_use]
    pub fn padded(&self) -> &[u64; CALL_WORDS] {
        &self.words
    }
}

impl Call {
    /// The call as words.
    #[must_use]
    pub fn words(&self) -> CallWords {
        match *self {
            Self::Sound => CallWords::new(1, []),
            Self::Open { start, size } => CallWords::new(2, [start.0, size]),
            Self::Close { process } => CallWords::new(3, [process.0]),
            Self::CreatePrivate {
                process,
                place,
                size,
                population,
                marks,
            } => {
                let (given, start) = place.words();
                let [flags, copy, thread] = marks.words();
                let eager = population.word();
                CallWords::new(
                    4,
                    [process.0, given, start, eager, size, flags, copy, thread],
                )
            }
            Self::CreateFile {
                process,
                place,
                size,
                marks,
                part,
            } => {
                let (given, start) = place.words();
                let [flags, copy, thread] = marks.words();
                let Part { file, offset, len } = part;
                CallWords::new(
                    5,
                    [
                        process.0, given, start, size, flags, copy, thread, file, offset, len,
                    ],
                )
            }
            Self::CreateShared {
                process,
                place,
                size,
            } => {
                let (given, start) = place.words();
                CallWords::new(6, [process.0, given, start, size])
            }
            Self::Remove { process, addr } => CallWords::new(7, [process.0, addr.0]),
            Self::Clear { process } => CallWords::new(8, [process.0]),
            Self::Carve { process, ref range } => {
                CallWords::new(9, [process.0, range.start, range.end])
            }
            Self::Covers { process, ref range } => {
                CallWords::new(10, [process.0, range.start, range.end])
            }
            Self::Region { process, addr } => CallWords::new(11, [process.0, addr.0]),
            Self::Regions { process } => CallWords::new(12, [process.0]),
            Self::Fault {
                process,
                addr,
                write,
            } => CallWords::new(13, [process.0, addr.0, write.into()]),
            Self::Populate {
                process,
                addr,
                len,
                write,
            } => CallWords::new(14, [process.0, addr.0, len, write.into()]),
            Self::Eager { process } => CallWords::new(15, [process.0]),
            Self::CloneRegion {
                process,
                addr,
                target,
            } => CallWords::new(16, [process.0, addr.0, target.0]),
            Self::Clone { process, target } => CallWords::new(17, [process.0, target.0]),
            Self::Protect {
                process,
                addr,
                flags,
            } => CallWords::new(18, [process.0, addr.0, flags.0]),
            Self::Pin { process, addr } => CallWords::new(19, [process.0, addr.0]),
            Self::Unpin { process, addr } => CallWords::new(20, [process.0, addr.0]),
            Self::Load { process, addr } => CallWords::new(21, [process.0, addr.0]),
            Self::Store {
                process,
                addr,
                byte,
            } => CallWords::new(22, [process.0, addr.0, byte.into()]),
        }
    }
}

impl Place {
    /// Whether a start is given, and the start.
    pub(crate) fn words(self) -> (u64, u64) {
        match self {
            Self::At(start) => (1, start.0),
            Self::Lowest => (0, 0),
        }
    }
}

impl Population {
    pub(crate) fn word(self) -> u64 {
        (self == Self::Eager).into()
    }
}

impl Marks {
    /// Flags, whether it is copied, whether it is a thread's own.
    pub(crate) fn words(self) -> [u64; 3] {
        let copy = self.fork == ForkPolicy::CopyEager;
        [self.flags.0, copy.into(), self.thread.into()]
    }
}
