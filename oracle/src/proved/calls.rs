//! The library's calls over lent memory of whatever lengths: numbers in, numbers out.

use jhilkompa::RESULTS;
use jhilkompa::ffi::machine::*;

use super::Lent;
use crate::calls::{Create, Kind, MachineCall, Marks};

/// How many results a call has by its name.
#[must_use]
pub fn results(call: &MachineCall) -> usize {
    match call {
        MachineCall::Regions { .. } | MachineCall::Carve { .. } => RESULTS,
        MachineCall::Open { .. }
        | MachineCall::Create(_)
        | MachineCall::Covers { .. }
        | MachineCall::Region { .. }
        | MachineCall::Load { .. } => 1,
        _ => 0,
    }
}

impl Lent {
    /// The number that `machine_call` gives for a call in words, whatever they are.
    pub fn ask_number(&mut self, call: &[u64], out: &mut [u64]) -> u64 {
        machine_call(&mut self.words, &mut self.frames, &self.files, call, out)
    }

    /// How many calls `machine_run` runs of those in these words, whatever they are.
    pub fn run(&mut self, calls: &[u64], answers: &mut [u64]) -> u64 {
        let (words, frames, files) = (&mut self.words, &mut self.frames, &self.files);
        machine_run(words, frames, files, calls, answers)
    }

    /// The number that the call's own function gives; 0 is success. A start takes `rows`. The state is the
    /// harness's own, and so is a file: there the library is asked whether the machine is sound.
    pub fn ask(&mut self, call: &MachineCall, rows: &[u64], out: &mut [u64]) -> u64 {
        let (w, f, b) = (&mut self.words[..], &mut self.frames[..], &self.files[..]);
        match *call {
            MachineCall::File { .. } | MachineCall::State => machine_sound(w, f, b),
            MachineCall::Start { .. } => machine_start(w, f, b, rows),
            MachineCall::Open { start, size } => machine_open(w, f, b, start, size, out),
            MachineCall::Close { p } => machine_close(w, f, b, p),
            MachineCall::Create(ref create) => self.create(create, out),
            MachineCall::Remove { p, addr } => machine_remove(w, f, b, p, addr),
            MachineCall::Clear { p } => machine_clear(w, f, b, p),
            MachineCall::Carve { p, start, end } => machine_carve(w, f, b, p, start, end, out),
            MachineCall::Covers { p, start, end } => machine_covers(w, f, b, p, start, end, out),
            MachineCall::Region { p, addr } => machine_region(w, f, b, p, addr, out),
            MachineCall::Regions { p } => machine_regions(w, f, b, p, out),
            MachineCall::Fault { p, addr, write } => machine_fault(w, f, b, p, addr, write.into()),
            MachineCall::Populate {
                p,
                addr,
                len,
                write,
            } => machine_populate(w, f, b, p, addr, len, write.into()),
            MachineCall::Eager { p } => machine_eager(w, f, b, p),
            MachineCall::CloneRegion { p, addr, target } => {
                machine_clone_region(w, f, b, p, addr, target)
            }
            MachineCall::Clone { p, target } => machine_clone(w, f, b, p, target),
            MachineCall::Protect { p, addr, flags } => machine_protect(w, f, b, p, addr, flags),
            MachineCall::Pin { p, addr } => machine_pin(w, f, b, p, addr),
            MachineCall::Unpin { p, addr } => machine_unpin(w, f, b, p, addr),
            MachineCall::Load { p, addr } => machine_load(w, f, b, p, addr, out),
            MachineCall::Store { p, addr, byte } => machine_store(w, f, b, p, addr, byte),
        }
    }

    fn create(&mut self, create: &Create, out: &mut [u64]) -> u64 {
        let (w, f, b) = (&mut self.words[..], &mut self.frames[..], &self.files[..]);
        let &Create { p, size, kind, .. } = create;
        let (given, start) = (create.start.is_some().into(), create.start.unwrap_or(0));
        let words_of = |marks: Marks| (marks.flags, marks.copy.into(), marks.thread.into());
        match kind {
            Kind::Lazy(marks) | Kind::Eager(marks) => {
                let (flags, copy, thread) = words_of(marks);
                let eager = matches!(kind, Kind::Eager(_)).into();
                machine_create_private(
                    w, f, b, p, given, start, size, flags, copy, thread, eager, out,
                )
            }
            Kind::File(marks, part) => {
                let (flags, copy, thread) = words_of(marks);
                machine_create_file(
                    w,
                    f,
                    b,
                    p,
                    given,
                    start,
                    size,
                    flags,
                    copy,
                    thread,
                    part.file,
                    part.offset,
                    part.length,
                    out,
                )
            }
            Kind::Shared => machine_create_shared(w, f, b, p, given, start, size, out),
        }
    }
}
