//! The lone manager: points P1 to P6 of docs/RULES.md, and its refusals.

use jhilkompa::segments::{Manager, Reserved, Segment, WORDS};
use jhilkompa::{Refusal, VirtAddr};

fn segment(start: u64, len: u64) -> Segment {
    Segment::new(VirtAddr(start), len)
}

/// The arena 0x10000 to 0x1ffff with two segments reserved.
fn two() -> Manager {
    let mut manager = Manager::new(VirtAddr(0x10000), 0x10000).expect("an arena");
    manager
        .mark_as_reserved(segment(0x11000, 0x1000))
        .expect("it is free");
    manager
        .mark_as_reserved(segment(0x13000, 0x2000))
        .expect("it is free");
    manager
}

fn reserved(start: u64, len: u64, restarts: u64) -> Result<Reserved, Refusal> {
    Ok(Reserved {
        segment: segment(start, len),
        restarts,
    })
}

#[test]
fn the_lowest_free_start_is_reserved() {
    for (len, answer) in [
        (0x1000, reserved(0x10000, 0x1000, 0)),
        (0x2000, reserved(0x15000, 0x2000, 2)),
        (0xb000, reserved(0x15000, 0xb000, 2)),
        (0xb001, Err(Refusal::NoSpace)),
        (0, Err(Refusal::NoSpace)),
        (0x10001, Err(Refusal::NoSpace)),
    ] {
        let mut manager = two();
        assert_eq!(manager.reserve_bytes(len), answer, "{len:#x}");
        assert_eq!(
            manager.segments().count(),
            if answer.is_ok() { 3 } else { 2 }
        );
    }
}

#[test]
fn a_segment_is_split_at_a_page_inside() {
    let mut manager = two();
    for at in [0x13000, 0x13800, 0x15000] {
        let answer = manager.split(segment(0x13000, 0x2000), VirtAddr(at));
        assert_eq!(answer, Err(Refusal::InvalidSplitPoint));
    }
    assert_eq!(
        manager.split(segment(0x13000, 0x3000), VirtAddr(0x14000)),
        Err(Refusal::NotReserved)
    );
    assert_eq!(manager, two());
    let parts = (segment(0x13000, 0x1000), segment(0x14000, 0x1000));
    assert_eq!(
        manager.split(segment(0x13000, 0x2000), VirtAddr(0x14000)),
        Ok(parts)
    );
    let all: Vec<Segment> = manager.segments().collect();
    assert_eq!(all, [segment(0x11000, 0x1000), parts.0, parts.1]);
}

#[test]
fn a_segment_is_given_up_exactly_as_it_is_held() {
    let mut manager = two();
    assert_eq!(manager.release(segment(0x13000, 0x1000)), Ok(false));
    assert_eq!(manager.release(segment(0x13000, 0x2000)), Ok(true));
    assert_eq!(manager.release(segment(0x13000, 0x2000)), Ok(false));
    assert_eq!(
        manager.segments().collect::<Vec<_>>(),
        [segment(0x11000, 0x1000)]
    );
    assert_eq!(
        manager.mark_as_reserved(segment(0x10fff, 2)),
        Err(Refusal::SegmentReserved)
    );
}

#[test]
fn the_upper_half_has_its_last_byte() {
    let mut manager = Manager::new(VirtAddr(0xffff_8000_0000_0000), 1 << 47).expect("an arena");
    manager
        .mark_as_reserved(segment(0xffff_ffff_8000_0000, 0x8000_0000))
        .expect("it is free");
    assert_eq!(
        manager.reserve_bytes(0x7fff_8000_0001),
        Err(Refusal::NoSpace)
    );
    assert_eq!(
        manager.reserve_bytes(0x7fff_8000_0000),
        reserved(0xffff_8000_0000_0000, 0x7fff_8000_0000, 0)
    );
}

#[test]
fn bad_forms_and_damaged_words_are_refused() {
    assert_eq!(
        Manager::new(VirtAddr(1 << 47), 0).err(),
        Some(Refusal::BadAddress)
    );
    assert_eq!(
        Manager::new(VirtAddr(0), (1 << 47) + 1).err(),
        Some(Refusal::BadRange)
    );
    let mut words = *two().words();
    assert_eq!(Manager::from_words(words), Ok(two()));
    words[2] = 3;
    assert_eq!(Manager::from_words(words).err(), Some(Refusal::BadTable));
    assert_eq!(
        Manager::from_words([u64::MAX; WORDS]).err(),
        Some(Refusal::BadTable)
    );
}
