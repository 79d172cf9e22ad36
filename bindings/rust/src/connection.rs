//! The client's end of a connection.

use crate::Session;
use std::io::{self, Read, Write};
use std::ops::{Deref, DerefMut};
use std::os::unix::io::OwnedFd;
use std::os::unix::net::UnixStream;
use std::sync::atomic::{AtomicBool, Ordering};
use std::sync::Arc;

/// The client's end of a connection: a `UnixStream` that knows its session.
#[derive(Debug)]
pub struct Connection {
    pub(crate) stream: UnixStream,
    pub(crate) session: Session,
    /// How many bytes it receives at most at a time.
    pub(crate) chunk: usize,
    pub(crate) is_cut: Arc<AtomicBool>,
}

impl Connection {
    /// Its session, for `Rule::session`.
    pub fn session(&self) -> Session {
        self.session
    }

    /// Whether it was dropped by `Faults::cut_after`.
    pub fn is_cut(&self) -> bool {
        self.is_cut.load(Ordering::SeqCst)
    }

    /// The socket, for a client that takes one.
    pub fn into_stream(self) -> UnixStream {
        self.stream
    }
}

impl Deref for Connection {
    type Target = UnixStream;

    fn deref(&self) -> &UnixStream {
        &self.stream
    }
}

impl DerefMut for Connection {
    fn deref_mut(&mut self) -> &mut UnixStream {
        &mut self.stream
    }
}

impl Read for Connection {
    fn read(&mut self, room: &mut [u8]) -> io::Result<usize> {
        let most = room.len().min(self.chunk);
        self.stream.read(&mut room[..most])
    }
}

impl Write for Connection {
    fn write(&mut self, bytes: &[u8]) -> io::Result<usize> {
        self.stream.write(bytes)
    }

    fn flush(&mut self) -> io::Result<()> {
        self.stream.flush()
    }
}

impl From<Connection> for OwnedFd {
    fn from(connection: Connection) -> Self {
        connection.stream.into()
    }
}
