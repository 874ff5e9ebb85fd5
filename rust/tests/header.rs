//! The functions of `ffi`, the numbers of calls and the names of refusals are those of the headers.

use jhilkompa::{
    CALL_WORDS, Call, FRAME_BYTES, ForkPolicy, Marks, PageTableFlags, Part, Place, Population,
    Process, RESULTS, ROW, Refusal, VirtAddr, WORDS, segments,
};

const MACHINE: &str = include_str!("../../include/machine.h");
const SEGMENTS: &str = include_str!("../../include/segments.h");
const FFI: &str = include_str!("../src/ffi.rs");

/// A function's name and the types of its parameters, a slice as `mut u64` or `const u8`.
type Declared = (String, Vec<String>);

/// The functions that a header declares.
fn of_header(header: &str) -> Vec<Declared> {
    let declared = header.split("\nuint64_t ").skip(1);
    declared
        .map(|text| {
            let text = text.split(';').next().expect("a declaration ends");
            let (name, parameters) = text.split_once('(').expect("a function has parameters");
            let parameters = parameters.trim_end_matches(')').split(',');
            (name.to_owned(), parameters.filter_map(of_c).collect())
        })
        .collect()
}

/// A parameter of C; the length of a slice goes with it and is left out.
fn of_c(parameter: &str) -> Option<String> {
    let (of, name) = parameter
        .trim()
        .rsplit_once(' ')
        .expect("a type and a name");
    let written = match (of, name.starts_with('*')) {
        ("size_t", _) => {
            assert!(name.ends_with("_len"), "{name}");
            return None;
        }
        ("uint64_t", false) => "u64",
        ("uint8_t", false) => "u8",
        ("uint64_t", true) => "mut u64",
        ("uint8_t", true) => "mut u8",
        ("const uint64_t", true) => "const u64",
        ("const uint8_t", true) => "const u8",
        other => panic!("no such parameter is known: {other:?}"),
    };
    Some(written.to_owned())
}

/// The functions that `ffi` declares.
fn of_ffi() -> Vec<Declared> {
    let declared = FFI
        .split("        fn ")
        .skip(1)
        .filter(|text| text.starts_with("ma"));
    declared
        .map(|text| {
            let text = text.split(");").next().expect("a declaration ends");
            let (name, parameters) = text.split_once('(').expect("a function has parameters");
            let mut groups = parameters.split(';');
            let mut types = Vec::new();
            for group in [0, 1, 2] {
                let group_text = groups
                    .next()
                    .unwrap_or_else(|| panic!("{name} has no group {group}"));
                let given = group_text
                    .split(',')
                    .map(str::trim)
                    .filter(|given| !given.is_empty());
                types.extend(given.map(|given| match (group, given.split_once(": ")) {
                    (0, Some((name, of))) => {
                        format!("{} {of}", name.split(' ').next().unwrap_or_default())
                    }
                    (1, Some((_, of))) => of.to_owned(),
                    _ => format!("{} u64", given.split(' ').next().unwrap_or_default()),
                }));
            }
            (name.to_owned(), types)
        })
        .collect()
}

#[test]
fn the_functions_are_those_of_the_headers() {
    let (mut header, mut ffi) = ([of_header(MACHINE), of_header(SEGMENTS)].concat(), of_ffi());
    assert!(header.len() > 28);
    header.sort();
    ffi.sort();
    assert_eq!(ffi, header);
}

/// One call of each kind, in the order of their numbers.
fn each() -> Vec<Call> {
    let (process, target, addr) = (Process(0), Process(1), VirtAddr(0));
    let (place, size, marks, range) = (Place::Lowest, 1, Marks::WRITABLE, 0..0);
    let (population, write, flags) = (Population::Lazy, false, PageTableFlags::PRESENT);
    let part = Part {
        file: 0,
        offset: 0,
        len: 0,
    };
    vec![
        Call::Sound,
        Call::Open { start: addr, size },
        Call::Close { process },
        Call::CreatePrivate {
            process,
            place,
            size,
            population,
            marks,
        },
        Call::CreateFile {
            process,
            place,
            size,
            marks,
            part,
        },
        Call::CreateShared {
            process,
            place,
            size,
        },
        Call::Remove { process, addr },
        Call::Clear { process },
        Call::Carve {
            process,
            range: range.clone(),
        },
        Call::Covers { process, range },
        Call::Region { process, addr },
        Call::Regions { process },
        Call::Fault {
            process,
            addr,
            write,
        },
        Call::Populate {
            process,
            addr,
            len: 0,
            write,
        },
        Call::Eager { process },
        Call::CloneRegion {
            process,
            addr,
            target,
        },
        Call::Clone { process, target },
        Call::Protect {
            process,
            addr,
            flags,
        },
        Call::Pin { process, addr },
        Call::Unpin { process, addr },
        Call::Load { process, addr },
        Call::Store {
            process,
            addr,
            byte: 0,
        },
    ]
}

/// A line `#define MACHINE_CALL_NAME NUMBER /* ARGUMENTS */`.
fn numbered(line: &str) -> Option<(String, u64, usize)> {
    let (name, rest) = line
        .strip_prefix("#define MACHINE_CALL_")?
        .split_once(' ')?;
    let (number, arguments) = rest.split_once("/*")?;
    let count = if arguments.contains("none") {
        0
    } else {
        arguments.split(',').count()
    };
    Some((
        name.replace('_', "").to_lowercase(),
        number.trim().parse().ok()?,
        count,
    ))
}

#[test]
fn the_calls_have_the_numbers_and_arguments_of_the_header() {
    let ours = each().into_iter().map(|call| {
        let name = format!("{call:?}")
            .split(' ')
            .next()
            .unwrap_or_default()
            .to_lowercase();
        let words = call.words();
        (name, words.as_slice()[0], words.as_slice().len() - 1)
    });
    let header = MACHINE
        .lines()
        .filter_map(numbered)
        .filter(|(name, ..)| name != "start");
    assert_eq!(ours.collect::<Vec<_>>(), header.collect::<Vec<_>>());
}

#[test]
fn the_arguments_stand_in_the_order_of_the_header() {
    let marks = Marks {
        flags: PageTableFlags(7),
        fork: ForkPolicy::CopyEager,
        thread: true,
    };
    let place = Place::At(VirtAddr(0x5000));
    let private = Call::CreatePrivate {
        process: Process(2),
        place,
        size: 0x3000,
        population: Population::Eager,
        marks,
    };
    // process, given, start, eager, size, flags, copy, thread
    assert_eq!(
        private.words().as_slice(),
        [4, 2, 1, 0x5000, 1, 0x3000, 7, 1, 1]
    );
    let part = Part {
        file: 3,
        offset: 4,
        len: 5,
    };
    let file = Call::CreateFile {
        process: Process(2),
        place: Place::Lowest,
        size: 0x3000,
        marks,
        part,
    };
    // process, given, start, size, flags, copy, thread, file, offset, length
    assert_eq!(
        file.words().as_slice(),
        [5, 2, 0, 0, 0x3000, 7, 1, 1, 3, 4, 5]
    );
    assert_eq!(file.words().padded().len(), CALL_WORDS);
}

#[test]
fn the_sizes_are_those_of_the_headers() {
    for (header, line) in [
        (MACHINE, format!("#define MACHINE_WORDS {WORDS}")),
        (MACHINE, format!("#define MACHINE_FRAME {FRAME_BYTES}")),
        (MACHINE, format!("#define MACHINE_REGIONS {RESULTS}")),
        (MACHINE, format!("#define MACHINE_ROW {ROW}")),
        (
            SEGMENTS,
            format!("#define SEGMENTS_OUT {}", segments::RESULTS),
        ),
        (
            SEGMENTS,
            format!("#define SEGMENTS_WORDS {}", segments::WORDS),
        ),
    ] {
        assert!(header.lines().any(|other| other == line), "{line}");
    }
}

/// The headers name refusals as `9 SegmentReserved`.
#[test]
fn the_refusals_are_those_of_the_headers() {
    let words: Vec<&str> = MACHINE
        .split_whitespace()
        .chain(SEGMENTS.split_whitespace())
        .collect();
    for number in 1..=22_u64 {
        let refusal = Refusal::from_number(number).expect("22 have a number");
        assert_eq!(u64::from(refusal.number()), number);
        let name = format!("{refusal:?}");
        let named = words.windows(2).any(|pair| {
            pair[0] == number.to_string() && pair[1].trim_end_matches([',', ';']) == name
        });
        assert!(named, "{refusal}");
    }
    assert_eq!(Refusal::from_number(0), None);
    assert_eq!(Refusal::from_number(23), None);
}
