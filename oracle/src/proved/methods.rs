//! A call by the method of crate `jhilkompa` that has its name.

use jhilkompa::{Answer, Call, Machine, Refusal};

/// The answer of the method.
///
/// # Errors
/// Its refusal.
pub fn by_method(machine: &mut Machine, call: &Call) -> Result<Answer, Refusal> {
    let done = |()| Answer::Done;
    match *call {
        Call::Sound => match machine.is_sound() {
            true => Ok(Answer::Done),
            false => Err(Refusal::BadTable),
        },
        Call::Open { start, size } => machine.open(start, size).map(Answer::Opened),
        Call::Close { process } => machine.close(process).map(done),
        Call::CreatePrivate {
            process,
            place,
            size,
            population,
            marks,
        } => machine
            .create_private(process, place, size, population, marks)
            .map(Answer::Placed),
        Call::CreateFile {
            process,
            place,
            size,
            marks,
            part,
        } => machine
            .create_file(process, place, size, marks, part)
            .map(Answer::Placed),
        Call::CreateShared {
            process,
            place,
            size,
        } => machine
            .create_shared(process, place, size)
            .map(Answer::Placed),
        Call::Remove { process, addr } => machine.remove(process, addr).map(done),
        Call::Clear { process } => machine.clear(process).map(done),
        Call::Carve { process, ref range } => {
            machine.carve(process, range.clone()).map(Answer::Listed)
        }
        Call::Covers { process, ref range } => {
            machine.covers(process, range.clone()).map(Answer::Covering)
        }
        Call::Region { process, addr } => machine.region(process, addr).map(Answer::Placed),
        Call::Regions { process } => machine.regions(process).map(Answer::Listed),
        Call::Fault {
            process,
            addr,
            write,
        } => machine.fault(process, addr, write).map(done),
        Call::Populate {
            process,
            addr,
            len,
            write,
        } => machine.populate(process, addr, len, write).map(done),
        Call::Eager { process } => machine.eager(process).map(done),
        Call::CloneRegion {
            process,
            addr,
            target,
        } => machine.clone_region(process, addr, target).map(done),
        Call::Clone { process, target } => machine.clone_process(process, target).map(done),
        Call::Protect {
            process,
            addr,
            flags,
        } => machine.protect(process, addr, flags).map(done),
        Call::Pin { process, addr } => machine.pin(process, addr).map(done),
        Call::Unpin { process, addr } => machine.unpin(process, addr).map(done),
        Call::Load { process, addr } => machine.load(process, addr).map(Answer::Loaded),
        Call::Store {
            process,
            addr,
            byte,
        } => machine.store(process, addr, byte).map(done),
    }
}
