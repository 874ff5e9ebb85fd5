//! The customer's story (examples/purge.calls): intake writes a cut-off date, the purge worker is cloned, intake writes a new date,
//! and the worker still reads the old one.
//!
//! cargo run --example purge

use jhilkompa::{Machine, Marks, Place, Population, Process, Refusal, VirtAddr};

const PAGE: VirtAddr = VirtAddr(0x1000);

fn main() -> Result<(), Refusal> {
    let mut machine = Machine::start(2, &[])?;
    let intake = machine.open(PAGE, 0x10_0000)?;
    let worker = machine.open(PAGE, 0x10_0000)?;

    machine.create_private(
        intake,
        Place::At(PAGE),
        0x1000,
        Population::Lazy,
        Marks::WRITABLE,
    )?;
    machine.fault(intake, PAGE, true)?;
    write(&mut machine, intake, [31, 12, 20, 26])?;

    // The page is shared now and writable on neither side: a write fault gives intake a copy of its own.
    machine.clone_process(intake, worker)?;
    assert_eq!(machine.store(intake, PAGE, 15), Err(Refusal::Denied));
    machine.fault(intake, PAGE, true)?;
    write(&mut machine, intake, [15, 1, 20, 27])?;

    machine.fault(worker, PAGE, false)?;
    let [old, new] = [read(&machine, worker)?, read(&machine, intake)?];
    println!("the worker reads {}, intake {}", text(old), text(new));
    assert_eq!((old, new), ([31, 12, 20, 26], [15, 1, 20, 27]));
    Ok(())
}

/// Writes day, month, century and year.
fn write(machine: &mut Machine, process: Process, date: [u8; 4]) -> Result<(), Refusal> {
    (PAGE.0..)
        .map(VirtAddr)
        .zip(date)
        .try_for_each(|(addr, byte)| machine.store(process, addr, byte))
}

fn read(machine: &Machine, process: Process) -> Result<[u8; 4], Refusal> {
    let mut date = [0; 4];
    for (addr, byte) in (PAGE.0..).map(VirtAddr).zip(&mut date) {
        *byte = machine.load(process, addr)?;
    }
    Ok(date)
}

fn text([day, month, century, year]: [u8; 4]) -> String {
    format!("{day:02}.{month:02}.{century:02}{year:02}")
}
