//! Stands in for the crate lock_api: the names that futures-intrusive uses of it, and a raw lock over std's mutex in the place of
//! parking_lot's.

use std::cell::UnsafeCell;
use std::ops::{Deref, DerefMut};
use std::sync::MutexGuard as StdGuard;

pub struct GuardSend(());

/// # Safety
///
/// A lock is held by one at a time, from `lock` or a `try_lock` that answers true to `unlock`.
pub unsafe trait RawMutex {
    const INIT: Self;

    type GuardMarker;

    fn lock(&self);

    fn try_lock(&self) -> bool;

    /// # Safety
    ///
    /// The caller holds the lock.
    unsafe fn unlock(&self);
}

/// std's mutex as a raw lock: it keeps its own guard while it is held.
pub struct StdLock {
    mutex: std::sync::Mutex<()>,
    guard: UnsafeCell<Option<StdGuard<'static, ()>>>,
}

// SAFETY: only the holder of the mutex reaches the guard.
unsafe impl Sync for StdLock {}
// SAFETY: no guard is held where the lock is moved, since a guard borrows it.
unsafe impl Send for StdLock {}

// SAFETY: std's mutex is held by one at a time.
unsafe impl RawMutex for StdLock {
    const INIT: StdLock = StdLock {
        mutex: std::sync::Mutex::new(()),
        guard: UnsafeCell::new(None),
    };

    type GuardMarker = GuardSend;

    #[inline]
    fn lock(&self) {
        let guard = self.mutex.lock().unwrap();
        // SAFETY: the guard is dropped by `unlock`, while the lock still lives.
        unsafe { *self.guard.get() = Some(std::mem::transmute::<StdGuard<'_, ()>, StdGuard<'static, ()>>(guard)) };
    }

    #[inline]
    fn try_lock(&self) -> bool {
        match self.mutex.try_lock() {
            Ok(guard) => {
                // SAFETY: as in `lock`.
                unsafe { *self.guard.get() = Some(std::mem::transmute::<StdGuard<'_, ()>, StdGuard<'static, ()>>(guard)) };
                true
            }
            Err(_) => false,
        }
    }

    #[inline]
    unsafe fn unlock(&self) {
        // SAFETY: the caller holds the lock.
        let guard = unsafe { (*self.guard.get()).take() };
        drop(guard);
    }
}

pub struct Mutex<R, T> {
    raw: R,
    value: UnsafeCell<T>,
}

// SAFETY: the value is reached by the lock's holder alone.
unsafe impl<R: Sync, T: Send> Sync for Mutex<R, T> {}

impl<R: RawMutex, T> Mutex<R, T> {
    pub const fn new(value: T) -> Self {
        Mutex {
            raw: R::INIT,
            value: UnsafeCell::new(value),
        }
    }

    #[inline]
    pub fn lock(&self) -> MutexGuard<'_, R, T> {
        self.raw.lock();
        MutexGuard { mutex: self }
    }
}

pub struct MutexGuard<'a, R: RawMutex, T> {
    mutex: &'a Mutex<R, T>,
}

impl<R: RawMutex, T> Deref for MutexGuard<'_, R, T> {
    type Target = T;

    #[inline]
    fn deref(&self) -> &T {
        // SAFETY: the guard's holder holds the lock.
        unsafe { &*self.mutex.value.get() }
    }
}

impl<R: RawMutex, T> DerefMut for MutexGuard<'_, R, T> {
    #[inline]
    fn deref_mut(&mut self) -> &mut T {
        // SAFETY: as in `deref`.
        unsafe { &mut *self.mutex.value.get() }
    }
}

impl<R: RawMutex, T> Drop for MutexGuard<'_, R, T> {
    #[inline]
    fn drop(&mut self) {
        // SAFETY: as in `deref`.
        unsafe { self.mutex.raw.unlock() }
    }
}
