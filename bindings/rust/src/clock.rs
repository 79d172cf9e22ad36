//! Clocks, which return the timestamps of calls.

use crate::arguments::{seconds, unix_time};
use crate::Error;
use std::sync::atomic::{AtomicU32, Ordering};
use std::sync::Arc;
use std::time::{Duration, SystemTime};

/// The system's clock.
pub fn wall_clock() -> SystemTime {
    SystemTime::now()
}

/// A clock that only the test moves. Its clones are the same clock. It has whole seconds, as the
/// protocol: fractions are dropped.
#[derive(Clone, Debug, Default)]
pub struct VirtualTime {
    moment: Arc<AtomicU32>,
}

impl VirtualTime {
    /// A clock at `moment`, from 1970 to 2106.
    pub fn new(moment: SystemTime) -> Result<Self, Error> {
        let time = Self::default();
        time.set(moment)?;
        Ok(time)
    }

    pub fn now(&self) -> SystemTime {
        unix_time(self.moment.load(Ordering::SeqCst))
    }

    /// Sets the time, earlier or later than before.
    pub fn set(&self, moment: SystemTime) -> Result<(), Error> {
        self.moment.store(seconds("moment", moment)?, Ordering::SeqCst);
        Ok(())
    }

    /// Moves the time forward.
    pub fn advance(&self, by: Duration) -> Result<(), Error> {
        match self.now().checked_add(by) {
            Some(moment) => self.set(moment),
            None => Err(Error::Argument(format!("by is too long: {:?}", by))),
        }
    }

    /// The argument for `Server::new`.
    pub fn clock(&self) -> impl Fn() -> SystemTime + Send + Sync + 'static {
        let clock = self.clone();
        move || clock.now()
    }
}
