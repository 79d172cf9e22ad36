//! Faults of connections.

use crate::arguments::in_range;
use crate::Error;
use std::time::Duration;

/// Faults of a connection. The numbers are of SFTP's bytes, without those of SSH. The default has
/// none.
///
/// ```
/// use lucernetick::Faults;
/// use std::time::Duration;
///
/// let bad = Faults::default().cut_after(100_000).delay(Duration::from_millis(50));
/// # let _ = bad;
/// ```
#[derive(Clone, Copy, Debug, Default, PartialEq, Eq)]
#[must_use]
pub struct Faults {
    pub(crate) cut_after: Option<u64>,
    pub(crate) delay: Duration,
    pub(crate) bandwidth: Option<u64>,
    pub(crate) chunk: Option<u64>,
}

/// The greatest number of an option.
const MOST: u64 = 1 << 53;

impl Faults {
    /// Drops the connection as soon as this many bytes were received from the client, or sent to
    /// it. Requests that are complete by then take effect, and no others.
    pub fn cut_after(self, bytes: u64) -> Self {
        Faults { cut_after: Some(bytes), ..self }
    }

    /// The latency of each reply. Replies to pipelined requests overlap.
    pub fn delay(self, latency: Duration) -> Self {
        Faults { delay: latency, ..self }
    }

    /// The bytes per second in each direction, at most.
    pub fn bandwidth(self, bytes: u64) -> Self {
        Faults { bandwidth: Some(bytes), ..self }
    }

    /// The client receives at most this many bytes at a time. With a socket that is not a
    /// `Connection`, it may receive several such chunks at once, if it reads while they are sent.
    pub fn chunk(self, bytes: u64) -> Self {
        Faults { chunk: Some(bytes), ..self }
    }

    pub(crate) fn check(&self) -> Result<(), Error> {
        in_range("cut_after", self.cut_after.unwrap_or(0), 0, MOST)?;
        in_range("bandwidth", self.bandwidth.unwrap_or(1), 1, MOST)?;
        in_range("chunk", self.chunk.unwrap_or(1), 1, MOST)?;
        in_range("delay in seconds", self.delay.as_secs(), 0, 1 << 31).map(drop)
    }

    /// How many bytes the client receives at most at a time.
    pub(crate) fn most(&self) -> usize {
        self.chunk.map_or(usize::MAX, |chunk| chunk as usize)
    }

    /// The time that bytes take.
    pub(crate) fn time_of(&self, bytes: usize) -> Duration {
        match self.bandwidth {
            Some(bandwidth) => Duration::from_secs_f64(bytes as f64 / bandwidth as f64),
            None => Duration::ZERO,
        }
    }
}
