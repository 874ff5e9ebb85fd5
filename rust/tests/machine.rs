//! The machine's calls: by their methods and as values, on sound memory and on damaged.

use std::ops::Range;

use jhilkompa::{
    Answer, Call, File, ForkPolicy, Machine, Mapping, Marks, PAGE_SIZE, Page, PageTableFlags, Part,
    PhysFrame, Place, Population, Process, Refusal, Room, VirtAddr, ffi,
};

const FIRST: VirtAddr = VirtAddr(0x1000);

/// Random numbers of our own (xorshift64).
struct Random(u64);

impl Random {
    fn below(&mut self, end: u64) -> u64 {
        self.0 ^= self.0 << 13;
        self.0 ^= self.0 >> 7;
        self.0 ^= self.0 << 17;
        self.0 % end
    }

    fn once_in(&mut self, times: u64) -> bool {
        self.below(times) == 0
    }

    fn addr(&mut self) -> VirtAddr {
        VirtAddr(if self.once_in(40) {
            u64::MAX
        } else {
            self.below(20 * PAGE_SIZE)
        })
    }

    fn process(&mut self) -> Process {
        Process(if self.once_in(40) { 8 } else { self.below(3) })
    }

    fn place(&mut self) -> Place {
        if self.once_in(2) {
            Place::Lowest
        } else {
            Place::At(VirtAddr(self.below(20) * PAGE_SIZE))
        }
    }

    fn flags(&mut self) -> PageTableFlags {
        PageTableFlags([7, 7, 7, 5, 1, 0][self.below(6) as usize])
    }

    fn marks(&mut self) -> Marks {
        let fork = if self.once_in(3) {
            ForkPolicy::CopyEager
        } else {
            ForkPolicy::CopyOnWrite
        };
        Marks {
            flags: self.flags(),
            fork,
            thread: self.once_in(6),
        }
    }

    fn range(&mut self) -> Range<u64> {
        let start = self.below(16) * PAGE_SIZE;
        start..start + self.below(6) * PAGE_SIZE
    }

    fn call(&mut self) -> Call {
        let (process, target, addr, write) = (
            self.process(),
            self.process(),
            self.addr(),
            !self.once_in(3),
        );
        let (place, size, marks, range) = (
            self.place(),
            self.below(3 * PAGE_SIZE),
            self.marks(),
            self.range(),
        );
        match self.below(40) {
            0 => Call::Sound,
            1..3 => Call::Open {
                start: FIRST,
                size: 0x20_000,
            },
            3 => Call::Close { process },
            4..10 => {
                let population = if self.once_in(3) {
                    Population::Eager
                } else {
                    Population::Lazy
                };
                Call::CreatePrivate {
                    process,
                    place,
                    size,
                    population,
                    marks,
                }
            }
            10..12 => {
                let part = Part {
                    file: self.below(3),
                    offset: self.below(9),
                    len: self.below(size + 1),
                };
                Call::CreateFile {
                    process,
                    place,
                    size,
                    marks,
                    part,
                }
            }
            12 => Call::CreateShared {
                process,
                place,
                size,
            },
            13 => Call::Remove { process, addr },
            14 => {
                if self.once_in(4) {
                    Call::Clear { process }
                } else {
                    Call::Regions { process }
                }
            }
            15..17 => Call::Carve { process, range },
            17 => Call::Covers { process, range },
            18 => Call::Region { process, addr },
            19..25 => Call::Fault {
                process,
                addr,
                write,
            },
            25 => Call::Populate {
                process,
                addr,
                len: size,
                write,
            },
            26 => Call::Eager { process },
            27..29 => Call::CloneRegion {
                process,
                addr,
                target,
            },
            29 => Call::Clone { process, target },
            30 => Call::Protect {
                process,
                addr,
                flags: marks.flags,
            },
            31 => Call::Pin { process, addr },
            32..34 => Call::Unpin { process, addr },
            34..37 => Call::Load { process, addr },
            _ => Call::Store {
                process,
                addr,
                byte: self.below(256) as u8,
            },
        }
    }
}

/// The call by the method of its name.
fn by_method(machine: &mut Machine, call: &Call) -> Result<Answer, Refusal> {
    let done = |()| Answer::Done;
    match *call {
        Call::Sound => {
            if machine.is_sound() {
                Ok(Answer::Done)
            } else {
                Err(Refusal::BadTable)
            }
        }
        Call::Open { start, size } => machine.open(start, size).map(Answer::Opened),
        Call::Close { process } => machine.close(process).map(done),
        Call::CreatePrivate {
            process,
            place,
            size,
            population,
            marks,
        } => machine
            .create_private(process, place, size, population, marks)
            .map(Answer::Placed),
        Call::CreateFile {
            process,
            place,
            size,
            marks,
            part,
        } => machine
            .create_file(process, place, size, marks, part)
            .map(Answer::Placed),
        Call::CreateShared {
            process,
            place,
            size,
        } => machine
            .create_shared(process, place, size)
            .map(Answer::Placed),
        Call::Remove { process, addr } => machine.remove(process, addr).map(done),
        Call::Clear { process } => machine.clear(process).map(done),
        Call::Carve { process, ref range } => {
            machine.carve(process, range.clone()).map(Answer::Listed)
        }
        Call::Covers { process, ref range } => {
            machine.covers(process, range.clone()).map(Answer::Covering)
        }
        Call::Region { process, addr } => machine.region(process, addr).map(Answer::Placed),
        Call::Regions { process } => machine.regions(process).map(Answer::Listed),
        Call::Fault {
            process,
            addr,
            write,
        } => machine.fault(process, addr, write).map(done),
        Call::Populate {
            process,
            addr,
            len,
            write,
        } => machine.populate(process, addr, len, write).map(done),
        Call::Eager { process } => machine.eager(process).map(done),
        Call::CloneRegion {
            process,
            addr,
            target,
        } => machine.clone_region(process, addr, target).map(done),
        Call::Clone { process, target } => machine.clone_process(process, target).map(done),
        Call::Protect {
            process,
            addr,
            flags,
        } => machine.protect(process, addr, flags).map(done),
        Call::Pin { process, addr } => machine.pin(process, addr).map(done),
        Call::Unpin { process, addr } => machine.unpin(process, addr).map(done),
        Call::Load { process, addr } => machine.load(process, addr).map(Answer::Loaded),
        Call::Store {
            process,
            addr,
            byte,
        } => machine.store(process, addr, byte).map(done),
    }
}

fn started() -> Machine {
    let files = [
        File {
            readable: true,
            bytes: b"a date that a worker was cloned with",
        },
        File {
            readable: false,
            bytes: b"",
        },
    ];
    Machine::start(12, &files).expect("it fits")
}

/// A machine with a private region of two pages, the first of them mapped and written.
fn small() -> (Machine, Process) {
    let mut machine = started();
    let process = machine.open(FIRST, 0x20_000).expect("there is room");
    let made = machine.create_private(
        process,
        Place::Lowest,
        2 * PAGE_SIZE,
        Population::Lazy,
        Marks::WRITABLE,
    );
    assert_eq!(made, Ok(FIRST));
    machine
        .fault(process, FIRST, true)
        .expect("there is a frame");
    machine.store(process, FIRST, 31).expect("it is writable");
    (machine, process)
}

/// Each call by its method and as a value: the same answer, the same memory, and each kind granted and refused.
#[test]
fn methods_and_values_are_the_same_calls() {
    let mut met = std::collections::BTreeSet::new();
    let mut random = Random(0x9e37_79b9_7f4a_7c15);
    for _ in 0..30 {
        let (mut one, mut other) = (started(), started());
        for _ in 0..150 {
            let call = random.call();
            let answer = by_method(&mut one, &call);
            assert_eq!(other.call(&call), answer, "{call:?}");
            assert!(one == other, "{call:?}");
            met.insert((call.words().as_slice()[0], answer.is_ok()));
        }
        assert!(one.is_sound());
    }
    let kinds: Vec<u64> = met
        .iter()
        .filter(|(_, granted)| *granted)
        .map(|(kind, _)| *kind)
        .collect();
    assert_eq!(kinds, (1..=22).collect::<Vec<u64>>());
    assert_eq!(met.len(), 22 + 21, "a sound machine alone is never refused");
}

/// Batches of all lengths, in one room and each in its own, beside the same calls one by one.
#[test]
fn a_batch_answers_as_its_calls_one_by_one() {
    let (mut random, mut room) = (Random(11), Room::default());
    let (mut refused, mut granted) = (0, 0);
    for _ in 0..20 {
        let (mut alone, mut at_once, mut in_room) = (started(), started(), started());
        for _ in 0..5 {
            let calls: Vec<Call> = (0..random.below(60)).map(|_| random.call()).collect();
            let answers: Vec<_> = calls.iter().map(|call| alone.call(call)).collect();
            assert_eq!(at_once.run(&calls).len(), calls.len());
            assert_eq!(
                in_room.run_in(&calls, &mut room).collect::<Vec<_>>(),
                answers
            );
            assert!(alone == at_once && alone == in_room);
            refused += answers.iter().filter(|answer| answer.is_err()).count();
            granted += answers.iter().filter(|answer| answer.is_ok()).count();
        }
    }
    assert!(refused > 500 && granted > 500, "{refused} {granted}");
}

#[test]
fn answers_have_the_kind_of_their_call() {
    let (mut machine, process) = small();
    let (addr, range) = (FIRST, 0x1000..0x3000);
    let calls = [
        (Call::Sound, Answer::Done),
        (
            Call::Open {
                start: FIRST,
                size: 0,
            },
            Answer::Opened(Process(1)),
        ),
        (
            Call::CreateShared {
                process,
                place: Place::Lowest,
                size: 1,
            },
            Answer::Placed(VirtAddr(0x3000)),
        ),
        (
            Call::Region {
                process,
                addr: VirtAddr(0x2fff),
            },
            Answer::Placed(FIRST),
        ),
        (
            Call::Covers {
                process,
                range: range.clone(),
            },
            Answer::Covering(true),
        ),
        (
            Call::Covers {
                process,
                range: 0..1,
            },
            Answer::Covering(false),
        ),
        (Call::Load { process, addr }, Answer::Loaded(31)),
        (
            Call::Regions { process },
            Answer::Listed(vec![FIRST, VirtAddr(0x3000)]),
        ),
        (
            Call::Carve {
                process,
                range: 0x1000..0x2000,
            },
            Answer::Listed(vec![FIRST]),
        ),
        (
            Call::Store {
                process,
                addr,
                byte: 255,
            },
            Answer::Done,
        ),
        (Call::Load { process, addr }, Answer::Loaded(255)),
    ];
    for (call, answer) in calls {
        assert_eq!(machine.call(&call), Ok(answer), "{call:?}");
    }
}

/// A region shows its part of a file and zeros behind it; one of a file that cannot be read is refused at the fault.
#[test]
fn a_region_shows_a_file() {
    let (mut machine, process) = (started(), Process(0));
    machine.open(FIRST, 0x20_000).expect("there is room");
    let part = Part {
        file: 0,
        offset: 2,
        len: 4,
    };
    let start = machine
        .create_file(process, Place::Lowest, 6, Marks::WRITABLE, part)
        .expect("there is room");
    machine
        .fault(process, start, false)
        .expect("it can be read");
    let shown: Vec<u8> = (0..6)
        .map(|i| {
            machine
                .load(process, VirtAddr(start.0 + i))
                .expect("it is mapped")
        })
        .collect();
    assert_eq!(shown, b"date\0\0");
    let dark = Part {
        file: 1,
        offset: 0,
        len: 1,
    };
    let start = machine
        .create_file(process, Place::Lowest, 1, Marks::WRITABLE, dark)
        .expect("there is room");
    assert_eq!(
        machine.fault(process, start, false),
        Err(Refusal::ReadFailed)
    );
    let none = Part {
        file: 2,
        offset: 0,
        len: 1,
    };
    assert_eq!(
        machine.create_file(process, Place::Lowest, 1, Marks::WRITABLE, none),
        Err(Refusal::NoFile)
    );
}

#[test]
fn a_start_takes_256_frames_and_8_files() {
    let file = File {
        readable: true,
        bytes: b"x",
    };
    assert!(Machine::start(256, &[file; 8]).is_ok());
    for refused in [
        Machine::start(257, &[]),
        Machine::start(usize::MAX, &[]),
        Machine::start(0, &[file; 9]),
        Machine::start_on(vec![0; 4095], &[]),
    ] {
        assert_eq!(refused.err(), Some(Refusal::BadTable));
    }
    let machine = Machine::start_on(vec![0xa5; 8192], &[]).expect("two frames");
    assert!(machine.frames().iter().all(|byte| *byte == 0xa5));
}

#[test]
fn mapped_pages_and_their_frames_can_be_read() {
    let (mut machine, process) = small();
    let second = VirtAddr(FIRST.0 + PAGE_SIZE);
    machine
        .fault(process, second, true)
        .expect("there is a frame");
    let child = machine.open(FIRST, 0x20_000).expect("there is room");
    machine
        .clone_process(process, child)
        .expect("there is room");
    machine.fault(child, FIRST, false).expect("it can be read");
    let ours: Vec<Mapping> = machine.mapped(process).collect();
    let theirs: Vec<Mapping> = machine.mapped(child).collect();
    let places = ours.iter().map(|mapping| (mapping.page, mapping.frame));
    assert!(places.eq([(Page(1), PhysFrame(0)), (Page(2), PhysFrame(1))]));
    assert_eq!(theirs, ours[..1]);
    assert!(!ours[0].flags.contains(PageTableFlags::WRITABLE));
    assert_eq!(machine.frame(ours[0].frame).map(|bytes| bytes[0]), Some(31));
    assert_eq!(machine.frame(PhysFrame(12)), None);
    assert_eq!(machine.mapped(Process(2)).count(), 0);
    assert_eq!(machine.mapped(Process(8)).count(), 0);
}

/// A damaged machine refuses every call and stays as it is; as memory of its own it is no machine.
#[test]
fn damage_is_refused() {
    let (mut machine, process) = small();
    let sound = machine.clone();
    machine.memory().words[0] = 2;
    let damaged = machine.clone();
    assert!(!machine.is_sound() && machine != sound);
    let mut random = Random(7);
    for _ in 0..200 {
        assert_eq!(machine.call(&random.call()), Err(Refusal::BadTable));
    }
    assert_eq!(machine.store(process, FIRST, 1), Err(Refusal::BadTable));
    let calls: Vec<Call> = (0..20).map(|_| random.call()).collect();
    assert!(
        machine
            .run(&calls)
            .all(|answer| answer == Err(Refusal::BadTable))
    );
    assert!(machine == damaged);
    let (words, frames, files) = machine.into_memory();
    assert_eq!(
        Machine::from_memory(words, frames, files).err(),
        Some(Refusal::BadTable)
    );
    let (words, frames, files) = sound.clone().into_memory();
    assert_eq!(Machine::from_memory(words, frames, files), Ok(sound));
}

/// The library's functions take memory of any length.
#[test]
fn lent_memory_of_any_length_is_refused() {
    let mut out = [9];
    for words in [0, 1, 11_843, 11_845] {
        let mut words = vec![0; words];
        assert_eq!(
            ffi::machine::machine_open(&mut words, &[], &[], 0, 0, &mut out),
            1
        );
        assert_eq!(ffi::machine::machine_sound(&words, &[], &[]), 1);
        assert!(words.iter().all(|word| *word == 0));
    }
    let mut machine = started();
    let memory = machine.memory();
    let mut none = [];
    assert_eq!(
        ffi::machine::machine_open(memory.words, memory.frames, memory.files, 0, 0, &mut none),
        1
    );
}
