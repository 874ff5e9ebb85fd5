//! The machines that are compared with the Rust's.

use crate::answer::Answer;
use crate::calls::MachineCall;
use crate::machine::Snapshot;
use crate::plain::PlainMachine;
#[cfg(proved_machine)]
use crate::proved::ProvedMachine;
#[cfg(proved_machine)]
use crate::words::FRAME_BYTES;

/// A machine that answers beside the Rust's.
pub trait Second {
    fn answer(&mut self, call: &MachineCall) -> Answer;

    /// The tables.
    ///
    /// # Errors
    /// Why they cannot be read.
    fn tables(&self) -> Result<Snapshot, String>;

    /// The bytes of a frame that is there.
    fn frame(&self, frame: usize) -> &[u8];
}

impl Second for PlainMachine {
    fn answer(&mut self, call: &MachineCall) -> Answer {
        self.answer(call)
    }

    fn tables(&self) -> Result<Snapshot, String> {
        Ok(self.snapshot(false))
    }

    fn frame(&self, frame: usize) -> &[u8] {
        self.frame(frame)
    }
}

#[cfg(proved_machine)]
impl Second for ProvedMachine {
    fn answer(&mut self, call: &MachineCall) -> Answer {
        self.answer(call)
    }

    fn tables(&self) -> Result<Snapshot, String> {
        self.snapshot(false)
    }

    fn frame(&self, frame: usize) -> &[u8] {
        let first = frame * FRAME_BYTES;
        &self.frames()[first..first + FRAME_BYTES]
    }
}
