//! Memory lent to the library, of whatever lengths, and the library's test of it.

use jhilkompa::ffi::machine::machine_sound;

#[cfg(proved_bench)]
unsafe extern "C" {
    fn cores_loads(
        words: *const u64,
        words_len: usize,
        frames: *const u8,
        frames_len: usize,
        files: *const u8,
        files_len: usize,
        process: u64,
        addr: u64,
        times: u64,
    ) -> u64;
}

/// The three slices of a machine.
#[derive(Debug, Default, PartialEq, Eq)]
pub struct Lent {
    pub words: Vec<u64>,
    pub frames: Vec<u8>,
    pub files: Vec<u8>,
}

impl Clone for Lent {
    fn clone(&self) -> Self {
        Self {
            words: self.words.clone(),
            frames: self.frames.clone(),
            files: self.files.clone(),
        }
    }

    /// Into the memory that is there: a machine is put back after each call, and a megabyte made anew
    /// each time would take most of the time.
    fn clone_from(&mut self, other: &Self) {
        self.words.clone_from(&other.words);
        self.frames.clone_from(&other.frames);
        self.files.clone_from(&other.files);
    }
}

impl Lent {
    /// The number that the library gives: 0 for a sound machine, 1 for anything else.
    #[must_use]
    pub fn sound(&self) -> u64 {
        machine_sound(&self.words, &self.frames, &self.files)
    }

    /// The sum of the bytes that a process loads at so many addresses from one on, with one test for all of them.
    #[cfg(proved_bench)]
    #[must_use]
    pub fn loads(&self, process: u64, addr: u64, times: u64) -> u64 {
        let (w, f, b) = (&self.words, &self.frames, &self.files);
        // SAFETY: the function reads inside the three slices that it is lent, whatever is in them.
        unsafe {
            cores_loads(
                w.as_ptr(),
                w.len(),
                f.as_ptr(),
                f.len(),
                b.as_ptr(),
                b.len(),
                process,
                addr,
                times,
            )
        }
    }
}
