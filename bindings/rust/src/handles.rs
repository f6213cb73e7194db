//! The handles of one schema, for any number of threads.

use crate::library::{Handle, VALID};
use std::sync::atomic::{AtomicUsize, Ordering};
use std::sync::{Mutex, MutexGuard, PoisonError, TryLockError};

/// As many calls have a kept handle at once; each further one makes its own.
const SLOTS: usize = 32;

/// A handle for one call at a time, in a cache line of its own: threads that are in calls at once do not wait for each
/// other's line.
#[repr(align(64))]
struct Slot(Mutex<Handle>);

/// Handles of one schema. A handle is in one call at a time, since it is behind a lock.
pub(crate) struct Handles {
    /// Makes the others, and is asked nothing.
    first: Mutex<Handle>,
    slots: Box<[Slot]>,
}

impl Handles {
    pub(crate) fn new(first: Handle) -> Handles {
        let slots = (0..SLOTS).map(|_| Slot(Mutex::new(Handle::empty()))).collect();
        Handles { first: Mutex::new(first), slots }
    }

    /// Makes a call with a handle that no other call has, or returns the status that says why there is none.
    pub(crate) fn with<R>(&self, call: impl FnOnce(&mut Handle) -> R) -> Result<R, u32> {
        let own = own_slot();
        let free = (0..SLOTS).find_map(|step| try_lock(&self.slots[(own + step) % SLOTS].0));
        match free {
            Some(mut handle) => self.made(&mut handle).map(call),
            None => self.made(&mut Handle::empty()).map(call),
        }
    }

    /// Gives the handle the schema, unless it has it.
    fn made<'h>(&self, handle: &'h mut Handle) -> Result<&'h mut Handle, u32> {
        if handle.is_empty() {
            let mut first = self.first.lock().unwrap_or_else(PoisonError::into_inner);
            let status = first.share(handle);
            if status != VALID {
                return Err(status);
            }
        }
        Ok(handle)
    }
}

/// Returns the handle, unless another call has it.
fn try_lock(handle: &Mutex<Handle>) -> Option<MutexGuard<'_, Handle>> {
    match handle.try_lock() {
        Ok(handle) => Some(handle),
        Err(TryLockError::Poisoned(poisoned)) => Some(poisoned.into_inner()),
        Err(TryLockError::WouldBlock) => None,
    }
}

/// Returns the slot at which this thread begins to look.
fn own_slot() -> usize {
    static NEXT: AtomicUsize = AtomicUsize::new(0);
    thread_local!(static OWN: usize = NEXT.fetch_add(1, Ordering::Relaxed) % SLOTS);
    // a thread that ends has no more values of its own
    OWN.try_with(|own| *own).unwrap_or(0)
}
