//! The server's end of a connection.

use crate::{linux, Faults};
use std::collections::VecDeque;
use std::io::{self, ErrorKind, Read};
use std::net::Shutdown;
use std::os::raw::{c_int, c_short};
use std::os::unix::io::AsRawFd;
use std::os::unix::net::UnixStream;
use std::sync::atomic::{AtomicBool, Ordering};
use std::sync::Arc;
use std::thread;
use std::time::{Duration, Instant};

const PIECE: usize = 65536;
/// How many bytes are buffered at most: of requests while replies cannot be sent, and of replies
/// that are late.
const MOST_AHEAD: usize = 1 << 24;
/// How often to look in a row whether the client has received a chunk, before it pauses.
const LOOKS: u32 = 200;

/// A connection that continues to read while it cannot send, and buffers the input. So a client
/// that sends before it reads does not deadlock.
pub(crate) struct Line {
    stream: UnixStream,
    ahead: VecDeque<u8>,
    has_ended: bool,
    /// The client has closed its connection: replies are discarded.
    is_deaf: bool,
    faults: Faults,
    /// How many bytes are received, and sent, before it is cut.
    to_come: u64,
    to_go: u64,
    /// Whether it was cut.
    is_cut: Arc<AtomicBool>,
    /// Replies, and when to send them.
    late: VecDeque<(Instant, Vec<u8>)>,
    late_bytes: usize,
    /// When the bandwidth allows to send further bytes.
    free: Instant,
}

impl Line {
    pub(crate) fn new(stream: UnixStream, faults: Faults, is_cut: Arc<AtomicBool>) -> Self {
        let left = faults.cut_after.unwrap_or(u64::MAX);
        Self {
            stream,
            ahead: VecDeque::new(),
            has_ended: false,
            is_deaf: false,
            faults,
            to_come: left,
            to_go: left,
            is_cut,
            late: VecDeque::new(),
            late_bytes: 0,
            free: Instant::now(),
        }
    }

    /// The next bytes; none at the end of the input, or if it is cut. After a cut by bytes that
    /// were sent, only those received before it. Meanwhile late replies are sent.
    pub(crate) fn read(&mut self, room: &mut [u8]) -> io::Result<usize> {
        let most = self.to_come.min(room.len() as u64) as usize;
        if self.to_come == 0 || self.to_go == 0 && self.ahead.is_empty() {
            self.is_cut.store(true, Ordering::SeqCst);
            return Ok(0);
        }
        self.wait_for_input();
        let count = self.read_some(&mut room[..most])?;
        self.to_come -= count as u64;
        if self.faults.bandwidth.is_some() {
            let until = Instant::now() + self.faults.time_of(count);
            let sent = self.send_late(until);
            self.or_deaf(sent);
        }
        Ok(count)
    }

    /// Sends the bytes, or buffers them if they are late. Those after a cut are discarded, and
    /// those for a client that has closed its connection.
    pub(crate) fn write_all(&mut self, bytes: &[u8]) {
        let most = self.to_go.min(bytes.len() as u64) as usize;
        self.to_go -= most as u64;
        let sent = match &bytes[..most] {
            _ if self.is_deaf => Ok(()),
            bytes if self.is_late() => self.add_late(bytes),
            bytes => self.send_all(bytes),
        };
        self.or_deaf(sent);
    }

    /// Whether replies are late.
    fn is_late(&self) -> bool {
        self.faults.delay > Duration::ZERO || self.faults.bandwidth.is_some()
    }

    /// If the client has closed its end, replies are discarded. What it sent is still read.
    fn or_deaf(&mut self, sent: io::Result<()>) {
        if sent.is_err() {
            self.is_deaf = true;
            self.late.clear();
            self.late_bytes = 0;
        }
    }

    /// Sends the late replies, and ends the connection. What the client has sent is read, so that
    /// it finds the end of the stream, and no reset.
    pub(crate) fn end(&mut self) -> io::Result<()> {
        while let Some((until, _)) = self.late.front() {
            let until = *until;
            self.send_late(until)?;
        }
        self.stream.shutdown(Shutdown::Both)?;
        let mut room = [0; PIECE];
        while self.stream.read(&mut room)? > 0 {}
        Ok(())
    }

    fn read_some(&mut self, room: &mut [u8]) -> io::Result<usize> {
        if !self.ahead.is_empty() {
            let count = self.ahead.read(room)?;
            if self.ahead.is_empty() {
                self.ahead = VecDeque::new();
            }
            return Ok(count);
        }
        if self.has_ended {
            return Ok(0);
        }
        loop {
            match self.stream.read(room) {
                Err(fault) if fault.kind() == ErrorKind::Interrupted => {}
                read => return read,
            }
        }
    }

    fn send_all(&mut self, bytes: &[u8]) -> io::Result<()> {
        for part in bytes.chunks(self.faults.most()) {
            self.send_part(part)?;
            if self.faults.chunk.is_some() {
                self.wait_until_received()?;
            }
        }
        Ok(())
    }

    fn send_part(&mut self, bytes: &[u8]) -> io::Result<()> {
        let mut rest = bytes;
        while !rest.is_empty() {
            match self.send(rest) {
                Ok(count) => rest = &rest[count..],
                Err(fault) if fault.kind() == ErrorKind::WouldBlock => {
                    self.wait(linux::POLLOUT, -1)?;
                }
                Err(fault) if fault.kind() == ErrorKind::Interrupted => {}
                Err(fault) => return Err(fault),
            }
        }
        Ok(())
    }

    /// Sends some of the bytes, without waiting.
    fn send(&self, bytes: &[u8]) -> io::Result<usize> {
        let flags = linux::MSG_DONTWAIT | linux::MSG_NOSIGNAL;
        // SAFETY: the bytes are valid, and the socket is open.
        let sent =
            unsafe { linux::send(self.stream.as_raw_fd(), bytes.as_ptr(), bytes.len(), flags) };
        usize::try_from(sent).map_err(|_| io::Error::last_os_error())
    }

    /// Waits for these events, for this time in milliseconds, or until there is input, which it
    /// reads. Returns whether the connection is closed.
    fn wait(&mut self, events: c_short, most: c_int) -> io::Result<bool> {
        let reads = !self.has_ended && self.ahead.len() < MOST_AHEAD;
        let found = self.poll(if reads { events | linux::POLLIN } else { events }, most)?;
        let is_input = found & linux::POLLIN != 0 && found & linux::POLLOUT == 0;
        if reads && is_input {
            self.read_ahead()?;
        }
        Ok(found & (linux::POLLHUP | linux::POLLERR) != 0)
    }

    /// The events that occurred.
    fn poll(&self, events: c_short, most: c_int) -> io::Result<c_short> {
        let mut line = linux::PollFd { fd: self.stream.as_raw_fd(), events, revents: 0 };
        // SAFETY: it is one element, which nothing else uses.
        if unsafe { linux::poll(&mut line, 1, most) } < 0 {
            let fault = io::Error::last_os_error();
            return if fault.kind() == ErrorKind::Interrupted { Ok(0) } else { Err(fault) };
        }
        Ok(line.revents)
    }

    fn read_ahead(&mut self) -> io::Result<()> {
        let mut piece = [0; PIECE];
        let count = self.stream.read(&mut piece)?;
        self.has_ended = count == 0;
        self.ahead.extend(&piece[..count]);
        Ok(())
    }

    fn wait_until_received(&mut self) -> io::Result<()> {
        let mut looks = 0;
        while self.unreceived()? > 0 {
            looks += 1;
            if looks < LOOKS {
                thread::yield_now();
            } else if self.wait(0, 1)? {
                return Err(ErrorKind::BrokenPipe.into());
            }
        }
        Ok(())
    }

    /// Some number other than 0 if the client has not received all bytes that were sent.
    fn unreceived(&self) -> io::Result<c_int> {
        let mut count: c_int = 0;
        // SAFETY: it writes a number, which is of a local variable.
        if unsafe { linux::ioctl(self.stream.as_raw_fd(), linux::SIOCOUTQ, &mut count) } < 0 {
            return Err(io::Error::last_os_error());
        }
        Ok(count)
    }

    fn add_late(&mut self, bytes: &[u8]) -> io::Result<()> {
        let due = Instant::now() + self.faults.delay;
        for part in bytes.chunks(PIECE) {
            self.free = self.free.max(due) + self.faults.time_of(part.len());
            self.late.push_back((self.free, part.to_vec()));
            self.late_bytes += part.len();
        }
        while self.late_bytes > MOST_AHEAD {
            self.send_late(self.late[0].0)?;
        }
        Ok(())
    }

    /// Sends late replies until there is something to read.
    fn wait_for_input(&mut self) {
        while let Some((due, _)) = self.late.front() {
            let due = *due;
            let has_input = !self.ahead.is_empty() || self.has_ended;
            if has_input || matches!(self.poll(linux::POLLIN, until(due)), Ok(1..)) {
                return;
            }
            let sent = self.send_late(due);
            self.or_deaf(sent);
        }
    }

    /// Sends the replies that are due until then, and returns then.
    fn send_late(&mut self, end: Instant) -> io::Result<()> {
        loop {
            let now = Instant::now();
            while matches!(self.late.front(), Some((due, _)) if *due <= now) {
                if let Some((_, bytes)) = self.late.pop_front() {
                    self.late_bytes -= bytes.len();
                    self.send_all(&bytes)?;
                }
            }
            if now >= end {
                return Ok(());
            }
            let next = self.late.front().map_or(end, |(due, _)| end.min(*due));
            if self.poll(0, until(next))? != 0 {
                return Err(ErrorKind::BrokenPipe.into());
            }
        }
    }
}

/// The milliseconds until then, rounded up.
fn until(then: Instant) -> c_int {
    let left = then.saturating_duration_since(Instant::now());
    c_int::try_from((left.as_nanos() + 999_999) / 1_000_000).unwrap_or(c_int::MAX)
}
