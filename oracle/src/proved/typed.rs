//! A script's call as the value that crate `jhilkompa` takes, and its answer as the oracle's.

use jhilkompa::{
    Call, ForkPolicy, Marks, PageTableFlags, Part, Place, Population, Process, VirtAddr,
};

use crate::answer::Answer;
use crate::calls::{self, Create, Kind, MachineCall};

/// The call as a value. A start makes a machine, and the state and a file are the harness's own: these have none.
#[must_use]
pub fn typed(call: &MachineCall) -> Option<Call> {
    let process = Process(call.process().unwrap_or(0));
    Some(match *call {
        MachineCall::File { .. } | MachineCall::Start { .. } | MachineCall::State => return None,
        MachineCall::Open { start, size } => Call::Open {
            start: VirtAddr(start),
            size,
        },
        MachineCall::Close { .. } => Call::Close { process },
        MachineCall::Create(ref create) => created(create),
        MachineCall::Remove { addr, .. } => Call::Remove {
            process,
            addr: VirtAddr(addr),
        },
        MachineCall::Clear { .. } => Call::Clear { process },
        MachineCall::Carve { start, end, .. } => Call::Carve {
            process,
            range: start..end,
        },
        MachineCall::Covers { start, end, .. } => Call::Covers {
            process,
            range: start..end,
        },
        MachineCall::Region { addr, .. } => Call::Region {
            process,
            addr: VirtAddr(addr),
        },
        MachineCall::Regions { .. } => Call::Regions { process },
        MachineCall::Fault { addr, write, .. } => Call::Fault {
            process,
            addr: VirtAddr(addr),
            write,
        },
        MachineCall::Populate {
            addr, len, write, ..
        } => Call::Populate {
            process,
            addr: VirtAddr(addr),
            len,
            write,
        },
        MachineCall::Eager { .. } => Call::Eager { process },
        MachineCall::CloneRegion { addr, target, .. } => Call::CloneRegion {
            process,
            addr: VirtAddr(addr),
            target: Process(target),
        },
        MachineCall::Clone { target, .. } => Call::Clone {
            process,
            target: Process(target),
        },
        MachineCall::Protect { addr, flags, .. } => Call::Protect {
            process,
            addr: VirtAddr(addr),
            flags: PageTableFlags(flags),
        },
        MachineCall::Pin { addr, .. } => Call::Pin {
            process,
            addr: VirtAddr(addr),
        },
        MachineCall::Unpin { addr, .. } => Call::Unpin {
            process,
            addr: VirtAddr(addr),
        },
        MachineCall::Load { addr, .. } => Call::Load {
            process,
            addr: VirtAddr(addr),
        },
        MachineCall::Store { addr, byte, .. } => Call::Store {
            process,
            addr: VirtAddr(addr),
            byte,
        },
    })
}

fn created(create: &Create) -> Call {
    let (process, size) = (Process(create.p), create.size);
    let place = create
        .start
        .map_or(Place::Lowest, |start| Place::At(VirtAddr(start)));
    match create.kind {
        Kind::Lazy(given) | Kind::Eager(given) => Call::CreatePrivate {
            process,
            place,
            size,
            population: match create.kind {
                Kind::Eager(_) => Population::Eager,
                _ => Population::Lazy,
            },
            marks: marks(given),
        },
        Kind::File(given, part) => Call::CreateFile {
            process,
            place,
            size,
            marks: marks(given),
            part: Part {
                file: part.file,
                offset: part.offset,
                len: part.length,
            },
        },
        Kind::Shared => Call::CreateShared {
            process,
            place,
            size,
        },
    }
}

fn marks(given: calls::Marks) -> Marks {
    Marks {
        flags: PageTableFlags(given.flags),
        fork: if given.copy {
            ForkPolicy::CopyEager
        } else {
            ForkPolicy::CopyOnWrite
        },
        thread: given.thread,
    }
}

/// The call as the words that `machine_call` takes. A start takes the rows of its files; for the state and for a file the library
/// is asked whether the machine is sound.
#[must_use]
pub fn numbered(call: &MachineCall, rows: &[u64]) -> Vec<u64> {
    match call {
        MachineCall::Start { .. } => [&[0], rows].concat(),
        _ => typed(call)
            .unwrap_or(Call::Sound)
            .words()
            .as_slice()
            .to_vec(),
    }
}

impl From<jhilkompa::Answer> for Answer {
    fn from(answer: jhilkompa::Answer) -> Self {
        match answer {
            jhilkompa::Answer::Done => Self::done(),
            jhilkompa::Answer::Opened(process) => Self::count(process.0),
            jhilkompa::Answer::Placed(start) => Self::hex(start.0),
            jhilkompa::Answer::Covering(covered) => Self::verdict(covered),
            jhilkompa::Answer::Loaded(byte) => Self::count(byte.into()),
            jhilkompa::Answer::Listed(starts) => {
                Self::list(starts.into_iter().map(VirtAddr::as_u64).collect(), 1)
            }
        }
    }
}
