//! Errors.

use crate::message;
use std::error;
use std::fmt;
use std::io::{self, ErrorKind};

/// Why the engine rejected a call. The call has changed nothing and may be retried.
#[derive(Clone, Copy, Debug, PartialEq, Eq)]
#[non_exhaustive]
pub enum Refusal {
    OutOfMemory,
    /// No session with this number was ever opened.
    NoSuchSession,
    /// 256 sessions are open.
    TooManySessions,
    /// The session has ended or was closed, and accepts no more bytes.
    HasEnded,
    NumbersSpent,
    /// Fewer bytes are pending.
    NotSent,
    /// A path, or both of a link, do not fit in a packet: 262080 bytes.
    LongPath,
    /// A number of the library that this crate does not know.
    Other(i64),
}

impl Refusal {
    pub(crate) fn of_number(number: i64) -> Self {
        match number {
            -1 => Refusal::OutOfMemory,
            -2 => Refusal::NoSuchSession,
            -3 => Refusal::TooManySessions,
            -4 => Refusal::HasEnded,
            -5 => Refusal::NumbersSpent,
            -6 => Refusal::NotSent,
            -10 => Refusal::LongPath,
            other => Refusal::Other(other),
        }
    }

    fn number(self) -> i64 {
        match self {
            Refusal::OutOfMemory => -1,
            Refusal::NoSuchSession => -2,
            Refusal::TooManySessions => -3,
            Refusal::HasEnded => -4,
            Refusal::NumbersSpent => -5,
            Refusal::NotSent => -6,
            Refusal::LongPath => -10,
            Refusal::Other(other) => other,
        }
    }
}

impl fmt::Display for Refusal {
    fn fmt(&self, f: &mut fmt::Formatter<'_>) -> fmt::Result {
        f.write_str(message(self.number()))
    }
}

impl error::Error for Refusal {}

impl From<Refusal> for io::Error {
    fn from(refusal: Refusal) -> Self {
        Error::from(refusal).into()
    }
}

/// The errors of this crate.
#[derive(Clone, Debug, PartialEq, Eq)]
#[non_exhaustive]
pub enum Error {
    /// The engine rejected a call.
    Refused(Refusal),
    /// An argument is invalid. The text has its name and its range.
    Argument(String),
    /// The server replied to a request with a status other than OK.
    #[non_exhaustive]
    Status { code: u32, message: String, request: String },
    /// A call of another session, still in progress, blocks a request of `write_files`. The request
    /// stays in progress, and only `run_all` advances it. It may hold a directory until then.
    Blocked,
    /// A session ended before its reply, or the reply is not the expected one.
    Ended,
    /// `calls()` would be incomplete: this many records were dropped. `last_calls` returns those
    /// that are kept.
    Dropped(u64),
    /// A thread of a server, or the scheduler of a race, ended by this panic or error. All
    /// connections were closed.
    Stopped(String),
    /// What `wait_for` or `wait_for_call` waits for did not happen within the timeout.
    TimedOut(String),
}

impl From<Refusal> for Error {
    fn from(refusal: Refusal) -> Self {
        Error::Refused(refusal)
    }
}

impl From<Error> for io::Error {
    fn from(fault: Error) -> Self {
        let kind = match &fault {
            Error::Argument(_) => ErrorKind::InvalidInput,
            Error::Status { code: 2, .. } => ErrorKind::NotFound,
            Error::Status { code: 3, .. } => ErrorKind::PermissionDenied,
            Error::Ended => ErrorKind::UnexpectedEof,
            Error::Stopped(_) => ErrorKind::BrokenPipe,
            Error::TimedOut(_) => ErrorKind::TimedOut,
            _ => ErrorKind::Other,
        };
        io::Error::new(kind, fault)
    }
}

impl fmt::Display for Error {
    fn fmt(&self, f: &mut fmt::Formatter<'_>) -> fmt::Result {
        match self {
            Error::Refused(refusal) => refusal.fmt(f),
            Error::Argument(why) | Error::TimedOut(why) => f.write_str(why),
            Error::Status { message, request, .. } => write!(f, "{}: {}", request, message),
            Error::Blocked => f.write_str("a call of another session blocks the request"),
            Error::Ended => f.write_str("the session ended before the expected reply"),
            Error::Dropped(count) => {
                write!(f, "{} calls were dropped: the engine keeps only the last ones", count)
            }
            Error::Stopped(why) => write!(f, "all connections were closed: {}", why),
        }
    }
}

impl error::Error for Error {
    fn source(&self) -> Option<&(dyn error::Error + 'static)> {
        match self {
            Error::Refused(refusal) => Some(refusal),
            _ => None,
        }
    }
}
