//! Stands in for the crate `spin`: locks, where waiting for one without end is a panic.

use std::fmt;
use std::sync::{RwLock as StdRwLock, RwLockReadGuard as StdRead, TryLockError, TryLockResult};
use std::thread;

pub use std::sync::RwLockWriteGuard;

/// More tries than another thread's turn takes.
const TRIES: u32 = 1_000_000;

pub mod mutex {
    pub use crate::Mutex;
}

/// A lock that many may read or one may write through.
pub struct RwLock<T>(StdRwLock<T>);

impl<T> RwLock<T> {
    pub const fn new(value: T) -> Self {
        Self(StdRwLock::new(value))
    }

    /// # Panics
    /// If the lock stays held for writing.
    pub fn read(&self) -> StdRead<'_, T> {
        spin(|| self.0.try_read())
    }

    /// # Panics
    /// If the lock stays held.
    pub fn write(&self) -> RwLockWriteGuard<'_, T> {
        spin(|| self.0.try_write())
    }

    /// The value, if the lock is given up for good.
    pub fn into_inner(self) -> T {
        match self.0.into_inner() {
            Ok(value) => value,
            Err(error) => error.into_inner(),
        }
    }
}

/// Takes a lock, whatever a panic before left behind it.
fn spin<G>(take: impl Fn() -> TryLockResult<G>) -> G {
    for _ in 0..TRIES {
        match take() {
            Ok(guard) => return guard,
            Err(TryLockError::Poisoned(error)) => return error.into_inner(),
            Err(TryLockError::WouldBlock) => thread::yield_now(),
        }
    }
    panic!("deadlock: the lock stays held");
}

/// A lock for one holder.
pub struct Mutex<T>(RwLock<T>);

impl<T> Mutex<T> {
    pub const fn new(value: T) -> Self {
        Self(RwLock::new(value))
    }

    /// # Panics
    /// If the lock stays held.
    pub fn lock(&self) -> RwLockWriteGuard<'_, T> {
        self.0.write()
    }

    pub fn into_inner(self) -> T {
        self.0.into_inner()
    }
}

impl<T: fmt::Debug> fmt::Debug for Mutex<T> {
    fn fmt(&self, f: &mut fmt::Formatter<'_>) -> fmt::Result {
        f.debug_tuple("Mutex").field(&*self.lock()).finish()
    }
}
