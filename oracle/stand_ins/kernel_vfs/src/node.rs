//! A file of the script: its number and its bytes, or none where it cannot be read.

use std::sync::Arc;

/// A read gives at most this many bytes, so that a reader has to ask again.
const LONGEST_READ: usize = 1500;

#[derive(Clone, Debug)]
pub struct VfsNode {
    pub number: usize,
    bytes: Option<Arc<[u8]>>,
}

#[derive(Debug)]
pub struct ReadError;

impl VfsNode {
    #[must_use]
    pub fn new(number: usize, bytes: Option<Arc<[u8]>>) -> Self {
        Self { number, bytes }
    }

    #[must_use]
    pub fn is_readable(&self) -> bool {
        self.bytes.is_some()
    }

    /// Reads from `offset` on and answers how many bytes it read: 0 from the end on.
    ///
    /// # Errors
    /// If the file cannot be read.
    pub fn read(&self, buffer: &mut [u8], offset: usize) -> Result<usize, ReadError> {
        let bytes = self.bytes.as_ref().ok_or(ReadError)?;
        let rest = bytes.get(offset..).unwrap_or_default();
        let count = rest.len().min(buffer.len()).min(LONGEST_READ);
        buffer[..count].copy_from_slice(&rest[..count]);
        Ok(count)
    }
}
