//! Runs a script of calls: one answer a call, in the form of the `script` program.

use std::io::{self, BufRead, Write};

use crate::answer::Answer;
use crate::calls::{self, BadLine, Call, MachineCall, ManagerCall};
use crate::machine::Machine;
use crate::manager::RustManager;

pub struct Script {
    manager: RustManager,
    has_manager: bool,
    machine: Machine,
    started: bool,
}

impl Script {
    /// An unguarded script hands even what the rules refuse to the Rust.
    #[must_use]
    pub fn new(guarded: bool) -> Self {
        Self {
            manager: RustManager::new(guarded),
            has_manager: false,
            machine: Machine::new(guarded),
            started: false,
        }
    }

    /// # Errors
    /// If the input cannot be read or the output not written.
    pub fn run(&mut self, input: &mut dyn BufRead, output: &mut dyn Write) -> io::Result<()> {
        let mut line = Vec::new();
        for number in 1_u64.. {
            line.clear();
            if input.read_until(b'\n', &mut line)? == 0 {
                break;
            }
            match self.line(&String::from_utf8_lossy(&line)) {
                Ok(Some(answer)) => writeln!(output, "{answer}")?,
                Ok(None) => {}
                Err(what) => writeln!(output, "? line {number}: {what}")?,
            }
        }
        output.flush()
    }

    fn line(&mut self, line: &str) -> Result<Option<Answer>, BadLine> {
        calls::parse(line)?.map(|call| self.call(&call)).transpose()
    }

    fn call(&mut self, call: &Call) -> Result<Answer, BadLine> {
        match call {
            Call::Manager(call) => self.manager_call(call),
            Call::Machine(call) => self.machine_call(call),
        }
    }

    fn manager_call(&mut self, call: &ManagerCall) -> Result<Answer, BadLine> {
        let makes = matches!(call, ManagerCall::Manager { .. });
        if !makes && !self.has_manager {
            return Err(BadLine::new("there is no manager yet"));
        }
        let answer = self.manager.answer(call);
        self.has_manager |= answer == Answer::done();
        Ok(answer)
    }

    fn machine_call(&mut self, call: &MachineCall) -> Result<Answer, BadLine> {
        match call {
            MachineCall::File { .. } if self.started => {
                return Err(BadLine::new("files are lent before the machine is started"));
            }
            MachineCall::File { .. } | MachineCall::Start { .. } => {}
            _ if !self.started => return Err(BadLine::new("there is no machine yet")),
            _ => {}
        }
        let answer = self.machine.answer(call);
        self.started |= matches!(call, MachineCall::Start { .. }) && answer == Answer::done();
        Ok(answer)
    }
}
