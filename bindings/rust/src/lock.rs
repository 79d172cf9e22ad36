//! A mutex that detects a thread that would wait for itself.

use std::ops::{Deref, DerefMut};
use std::sync::atomic::{AtomicUsize, Ordering};
use std::sync::{Condvar, Mutex, MutexGuard, PoisonError};
use std::time::Duration;

/// A mutex and its condition variable. A panicking thread leaves an engine between two calls, so
/// the state is valid afterwards.
pub(crate) struct Lock<T> {
    state: Mutex<T>,
    moved: Condvar,
    /// The thread that has the state; 0 for none.
    holder: AtomicUsize,
}

pub(crate) struct Guard<'a, T> {
    lock: &'a Lock<T>,
    /// None only while it is taken by `wait`.
    state: Option<MutexGuard<'a, T>>,
}

impl<T> Lock<T> {
    pub(crate) fn new(state: T) -> Self {
        Self { state: Mutex::new(state), moved: Condvar::new(), holder: AtomicUsize::new(0) }
    }

    /// Panics if this thread has the state already, instead of waiting for itself.
    pub(crate) fn lock(&self) -> Guard<'_, T> {
        assert!(
            self.holder.load(Ordering::SeqCst) != this_thread(),
            "this thread would wait for itself: inside `with_engine`, a callback, a rule or a \
             clock, use the engine that is given, and not its server or race"
        );
        let state = self.state.lock().unwrap_or_else(PoisonError::into_inner);
        self.guard(state)
    }

    pub(crate) fn notify_all(&self) {
        self.moved.notify_all();
    }

    fn guard<'a>(&'a self, state: MutexGuard<'a, T>) -> Guard<'a, T> {
        self.holder.store(this_thread(), Ordering::SeqCst);
        Guard { lock: self, state: Some(state) }
    }
}

impl<'a, T> Guard<'a, T> {
    /// Waits until it is notified, at most for this time.
    pub(crate) fn wait(mut self, most: Duration) -> Self {
        let lock = self.lock;
        lock.holder.store(0, Ordering::SeqCst);
        match self.state.take() {
            Some(state) => {
                let waited = lock.moved.wait_timeout(state, most);
                lock.guard(waited.unwrap_or_else(PoisonError::into_inner).0)
            }
            None => lock.lock(),
        }
    }
}

impl<T> Deref for Guard<'_, T> {
    type Target = T;

    fn deref(&self) -> &T {
        self.state.as_ref().expect("only `wait` takes it")
    }
}

impl<T> DerefMut for Guard<'_, T> {
    fn deref_mut(&mut self) -> &mut T {
        self.state.as_mut().expect("only `wait` takes it")
    }
}

impl<T> Drop for Guard<'_, T> {
    fn drop(&mut self) {
        if self.state.is_some() {
            self.lock.holder.store(0, Ordering::SeqCst);
        }
    }
}

/// A number that no other running thread has.
fn this_thread() -> usize {
    thread_local!(static HERE: u8 = const { 0 });
    HERE.with(|here| here as *const u8 as usize)
}
