//! Stands in for the kernel's `IrqMutex`: there are no interrupts to turn off.

use spin::{Mutex, RwLockWriteGuard};

pub struct IrqMutex<T>(Mutex<T>);

impl<T> IrqMutex<T> {
    pub const fn new(value: T) -> Self {
        Self(Mutex::new(value))
    }

    /// # Panics
    /// If the lock stays held.
    pub fn lock_without_interrupts(&self) -> RwLockWriteGuard<'_, T> {
        self.0.lock()
    }
}
