//! Functions of Linux that the standard library does not have.

use std::os::raw::{c_char, c_int, c_short, c_ulong};

/// The events to poll for, and those that occurred.
#[repr(C)]
pub struct PollFd {
    pub fd: c_int,
    pub events: c_short,
    pub revents: c_short,
}

pub const POLLIN: c_short = 0x01;
pub const POLLOUT: c_short = 0x04;
pub const POLLERR: c_short = 0x08;
pub const POLLHUP: c_short = 0x10;
pub const MSG_DONTWAIT: c_int = 0x40;
pub const MSG_NOSIGNAL: c_int = 0x4000;
/// How many bytes were sent that the peer has not received.
pub const SIOCOUTQ: c_ulong = 0x5411;

#[cfg(feature = "ssh")]
pub const SIGTERM: c_int = 15;

/// A time, in seconds since 1970.
#[repr(C)]
pub struct Timespec {
    pub seconds: i64,
    pub nanoseconds: i64,
}

pub const AT_FDCWD: c_int = -100;

pub const O_NONBLOCK: c_int = 0o4000;
pub const O_DIRECTORY: c_int = 0o200000;
pub const O_NOFOLLOW: c_int = 0o400000;
pub const O_PATH: c_int = 0o10000000;

extern "C" {
    pub fn utimensat(
        folder: c_int,
        path: *const c_char,
        times: *const Timespec,
        flags: c_int,
    ) -> c_int;
    pub fn poll(fds: *mut PollFd, count: c_ulong, timeout: c_int) -> c_int;
    pub fn send(socket: c_int, bytes: *const u8, length: usize, flags: c_int) -> isize;
    #[cfg(feature = "ssh")]
    pub fn kill(process: c_int, signal: c_int) -> c_int;
    pub fn ioctl(socket: c_int, request: c_ulong, ...) -> c_int;
}
