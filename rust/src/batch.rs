//! Many calls with one soundness test for all of them: their words, and the rows of their answers.

use alloc::vec::Vec;

use crate::answer::{Answer, RESULTS};
use crate::call::Call;
use crate::ffi::machine::machine_run;
use crate::machine::Machine;
use crate::refusal::{Refusal, settle};

/// The words of an answer: its number, then the call's results.
pub const ROW: usize = 1 + RESULTS;

/// Room for the words of calls and the rows of their answers, which can be used again and again.
#[derive(Clone, Debug, Default)]
pub struct Room {
    calls: Vec<u64>,
    rows: Vec<u64>,
}

impl Room {
    /// Writes the calls as words, each behind how many it has, and makes room for as many answers.
    fn put(&mut self, calls: &[Call]) {
        self.calls.clear();
        for call in calls {
            let words = call.words();
            self.calls.push(words.as_slice().len() as u64);
            self.calls.extend_from_slice(words.as_slice());
        }
        self.rows.resize(calls.len() * ROW, 0);
    }

    /// The answer to the call in this place.
    fn answer(&self, place: usize, call: &Call) -> Result<Answer, Refusal> {
        let row = self.rows[place * ROW..][..ROW].split_first();
        let (number, results) = row.expect("a row has a number");
        settle(*number)?;
        Ok(Answer::read(
            call,
            results.try_into().expect("and its results"),
        ))
    }
}

impl Machine {
    /// Many calls, one after the other, with one soundness test for all of them: each keeps the rules, so that a test before each
    /// would say the same. A refusal ends nothing. All of them have run before the first answer is read.
    ///
    /// ```
    /// use jhilkompa::{Answer, Call, Machine, Process, Refusal, VirtAddr};
    ///
    /// let mut machine = Machine::start(0, &[])?;
    /// let open = Call::Open { start: VirtAddr(0), size: 0x1000 };
    /// let clear = Call::Clear { process: Process(1) };
    /// let answers: Vec<_> = machine.run(&[open.clone(), clear.clone(), open, clear]).collect();
    /// let opened = |number| Ok(Answer::Opened(Process(number)));
    /// assert_eq!(answers, [opened(0), Err(Refusal::NoProcess), opened(1), Ok(Answer::Done)]);
    /// # Ok::<(), Refusal>(())
    /// ```
    pub fn run<'a>(
        &mut self,
        calls: &'a [Call],
    ) -> impl ExactSizeIterator<Item = Result<Answer, Refusal>> + use<'a> {
        let mut room = Room::default();
        self.run_all(calls, &mut room);
        let places = calls.iter().enumerate();
        places.map(move |(place, call)| room.answer(place, call))
    }

    /// The same in room that is there already.
    pub fn run_in<'a>(
        &mut self,
        calls: &'a [Call],
        room: &'a mut Room,
    ) -> impl ExactSizeIterator<Item = Result<Answer, Refusal>> + use<'a> {
        self.run_all(calls, room);
        let room = &*room;
        let places = calls.iter().enumerate();
        places.map(move |(place, call)| room.answer(place, call))
    }

    fn run_all(&mut self, calls: &[Call], room: &mut Room) {
        room.put(calls);
        let memory = self.memory();
        let ran = machine_run(
            memory.words,
            memory.frames,
            memory.files,
            &room.calls,
            &mut room.rows,
        );
        assert_eq!(
            ran,
            calls.len() as u64,
            "the library runs all calls that have room"
        );
    }
}
