//! What the crate needs of `std::sync::OnceLock`, which Rust has from 1.70 on.

use std::cell::UnsafeCell;
use std::panic::{RefUnwindSafe, UnwindSafe};
use std::sync::Once;

/// A value that is made when it is first asked for.
pub(crate) struct OnceLock<T> {
    once: Once,
    value: UnsafeCell<Option<T>>,
}

// SAFETY: one thread writes the value, while each other that asks for it waits, and after that it is only read. So it
// may be shared where it may be read by several threads at once, and dropped by another one than that which made it.
unsafe impl<T: Send + Sync> Sync for OnceLock<T> {}

// a value is there whole or not at all, also after a panic
impl<T: UnwindSafe + RefUnwindSafe> RefUnwindSafe for OnceLock<T> {}

impl<T> OnceLock<T> {
    pub const fn new() -> OnceLock<T> {
        OnceLock { once: Once::new(), value: UnsafeCell::new(None) }
    }

    /// The value, if it was made.
    fn get(&self) -> Option<&T> {
        // SAFETY: once it is completed, nothing writes it.
        self.once.is_completed().then(|| unsafe { &*self.value.get() })?.as_ref()
    }

    pub fn get_or_init(&self, make: impl FnOnce() -> T) -> &T {
        // SAFETY: `Once` runs one of these at a time, and none after it is completed, before which nothing refers to
        // the value.
        self.once.call_once_force(|_| unsafe { *self.value.get() = Some(make()) });
        self.get().expect("it was made")
    }
}

impl<T: Clone> Clone for OnceLock<T> {
    fn clone(&self) -> OnceLock<T> {
        let copy = OnceLock::new();
        if let Some(value) = self.get() {
            copy.get_or_init(|| value.clone());
        }
        copy
    }
}
