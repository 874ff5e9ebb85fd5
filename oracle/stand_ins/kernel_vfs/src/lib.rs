//! Stands in for the crate `kernel_vfs`: files with their bytes, and the share of a shared mapping.

use std::any::Any;
use std::fmt;
use std::sync::Arc;

pub mod node;

/// A share of the memory behind a shared mapping. Its clones keep the memory alive.
#[derive(Clone)]
pub struct MmapRegion {
    memory: Arc<dyn Any + Send + Sync>,
}

impl MmapRegion {
    pub fn new(memory: Arc<dyn Any + Send + Sync>) -> Self {
        Self { memory }
    }

    /// How many shares of the memory there are.
    #[must_use]
    pub fn shares(&self) -> usize {
        Arc::strong_count(&self.memory)
    }
}

impl fmt::Debug for MmapRegion {
    fn fmt(&self, f: &mut fmt::Formatter<'_>) -> fmt::Result {
        f.debug_struct("MmapRegion").finish_non_exhaustive()
    }
}
