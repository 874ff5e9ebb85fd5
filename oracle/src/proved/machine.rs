//! The proved machine beside the Rust's: each call goes to crate `jhilkompa` by its method, as a value, in words and as a batch of one
//! in turn, and what it leaves is watched.

use std::slice;

use jhilkompa::ffi::machine::machine_call;
use jhilkompa::{Call, File, Machine, RESULTS};

use super::methods::by_method;
use super::{numbered, results, typed};
use crate::answer::{Answer, Refusal};
use crate::calls::MachineCall;
use crate::machine::{FILES, Snapshot};
use crate::words::{self, FRAME_BYTES, decode};

/// Of more frames than a machine can have, one more than that is lent: as wrong a length as any.
const TOO_MANY: u64 = 257;
/// What a frame holds at the start, as in the oracle's machine.
const UNTOUCHED: u8 = 0xa5;

pub struct ProvedMachine {
    machine: Machine,
    /// What it was before the last call.
    before: Machine,
    /// The files of the machine that is started next: whether each can be read, and its bytes.
    files: Vec<(bool, Vec<u8>)>,
    /// How many calls the library was asked.
    asked: u64,
    /// How the library broke its contract, if it did.
    breach: Option<&'static str>,
}

impl Default for ProvedMachine {
    /// A machine without files or frames.
    fn default() -> Self {
        let machine = Machine::start(0, &[]).expect("a machine may have neither");
        Self {
            before: machine.clone(),
            machine,
            files: Vec::new(),
            asked: 0,
            breach: None,
        }
    }
}

impl ProvedMachine {
    /// The answer to any call; the state is told of a machine that the library calls sound.
    pub fn answer(&mut self, call: &MachineCall) -> Answer {
        self.asked += 1;
        let answer = match (call, typed(call)) {
            (_, Some(typed)) => self.ask(call, &typed),
            (MachineCall::File { readable, bytes }, _) => self.file(*readable, bytes),
            (MachineCall::Start { frames }, _) => self.start(*frames),
            _ => self.ask(call, &Call::Sound).map(|_| self.state()),
        };
        let breach = self.breach.take();
        breach.map_or_else(
            || answer.into(),
            |what| Answer::Broken(format!("the library: {what}")),
        )
    }

    /// The state, as the oracle's machine has it, or why the words cannot be read.
    ///
    /// # Errors
    /// What cannot be read.
    pub fn snapshot(&self, bytes: bool) -> Result<Snapshot, String> {
        decode(self.machine.words(), self.machine.frames(), bytes)
    }

    /// The bytes of all frames, one frame after the other.
    #[must_use]
    pub fn frames(&self) -> &[u8] {
        self.machine.frames()
    }

    fn state(&self) -> Answer {
        match self.snapshot(true) {
            Ok(state) => Answer::State(state.to_string()),
            Err(what) => Answer::Broken(what),
        }
    }

    /// Keeps one more file for the machine that is started next, and answers its number.
    fn file(&mut self, readable: bool, bytes: &[u8]) -> Result<Answer, Refusal> {
        let number = self.files.len();
        if number == FILES {
            return Err(Refusal::TableFull);
        }
        self.files.push((readable, bytes.to_vec()));
        Ok(Answer::count(number as u64))
    }

    /// Puts an empty machine with so many frames in the place of this one; refused, this one stays.
    fn start(&mut self, frames: u64) -> Result<Answer, Refusal> {
        let fresh = vec![UNTOUCHED; frames.min(TOO_MANY) as usize * FRAME_BYTES];
        self.machine = if self.asked % 2 == 1 {
            let files = self.files.iter().map(|(readable, bytes)| File {
                readable: *readable,
                bytes,
            });
            Machine::start_on(fresh, &files.collect::<Vec<_>>())
        } else {
            self.start_in_words(fresh)
        }?;
        if self.frames().iter().any(|byte| *byte != UNTOUCHED) {
            self.breach = Some("a start changed the frames");
        }
        Ok(Answer::done())
    }

    /// The same by its number, over the words that there are.
    fn start_in_words(&mut self, mut frames: Vec<u8>) -> Result<Machine, Refusal> {
        let (mut rows, mut files) = (Vec::new(), Vec::new());
        for (readable, bytes) in &self.files {
            words::File::lend(&mut rows, &mut files, *readable, bytes);
        }
        let rows: Vec<u64> = rows.into_iter().flat_map(<[u64; 3]>::from).collect();
        let (mut words, ..) = self.machine.clone().into_memory();
        let call = numbered(&MachineCall::Start { frames: 0 }, &rows);
        let mut out = [u64::MAX; RESULTS];
        let number = machine_call(&mut words[..], &mut frames, &files, &call, &mut out);
        self.expect(out == [0; RESULTS], "a start has results");
        self.settle(number)?;
        Machine::from_memory(words, frames, files)
    }

    /// Asks in the way whose turn it is, and notes where the library breaks its contract: a look-up changes nothing, and a refusal
    /// changes nothing that it may not.
    fn ask(&mut self, call: &MachineCall, typed: &Call) -> Result<Answer, Refusal> {
        self.before.clone_from(&self.machine);
        let answer = match self.asked % 4 {
            0 => by_method(&mut self.machine, typed),
            1 => self.machine.call(typed),
            2 => self.in_words(call, typed),
            _ => self.as_batch(typed),
        };
        let number = answer.as_ref().err().map_or(0, |why| why.number().into());
        if (looks(call) || number != 0) && !keeps(call, number) {
            let left = self.machine == self.before;
            self.expect(left, "a look-up or a refusal changed the machine");
        }
        answer.map(Answer::from)
    }

    /// Asks in words, and looks at all words of the results: zeros stand behind them, and alone where the call is refused.
    fn in_words(&mut self, call: &MachineCall, typed: &Call) -> Result<jhilkompa::Answer, Refusal> {
        let memory = self.machine.memory();
        let (mut out, words) = ([u64::MAX; RESULTS], typed.words());
        let number = machine_call(
            memory.words,
            memory.frames,
            memory.files,
            words.as_slice(),
            &mut out,
        );
        let used = match results(call) {
            RESULTS => 1 + usize::try_from(out[0]).unwrap_or(RESULTS).min(RESULTS - 1),
            few => few,
        };
        let used = if number == 0 { used } else { 0 };
        let behind = out[used..].iter().all(|word| *word == 0);
        self.expect(behind, "a result that has no meaning is not 0");
        self.settle(number)?;
        Ok(jhilkompa::Answer::read(typed, &out))
    }

    /// Asks with a batch of one call.
    fn as_batch(&mut self, typed: &Call) -> Result<jhilkompa::Answer, Refusal> {
        let mut answers = self.machine.run(slice::from_ref(typed));
        answers.next().expect("one call has one answer")
    }

    fn expect(&mut self, holds: bool, else_what: &'static str) {
        if !holds {
            self.breach = Some(else_what);
        }
    }

    /// What a number says; an unknown one is noted.
    fn settle(&mut self, number: u64) -> Result<(), Refusal> {
        if number == 0 {
            return Ok(());
        }
        let refusal = Refusal::from_number(number);
        self.expect(refusal.is_some(), "an unknown number");
        Err(refusal.unwrap_or(Refusal::BadTable))
    }
}

/// Whether a call only looks.
fn looks(call: &MachineCall) -> bool {
    matches!(
        call,
        MachineCall::Covers { .. }
            | MachineCall::Region { .. }
            | MachineCall::Regions { .. }
            | MachineCall::Load { .. }
            | MachineCall::State
    )
}

/// Whether a call may keep what it did before this refusal (RULES O3): those of its arguments come
/// before it does anything.
#[must_use]
pub fn keeps(call: &MachineCall, number: u64) -> bool {
    let step_by_step = matches!(
        call,
        MachineCall::Carve { .. }
            | MachineCall::Populate { .. }
            | MachineCall::Eager { .. }
            | MachineCall::Clone { .. }
    );
    step_by_step && number > u64::from(Refusal::NoRegion.number())
}
