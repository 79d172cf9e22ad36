//! Lends its standard input and output to whoever listens on a Unix socket, and ends:
//!
//!   lend PATH
//!
//! `sftp -D` starts a command and speaks to it. Where this is the command, it speaks to the
//! listener directly, and nobody in between copies its bytes.

use std::io;
use std::os::fd::AsRawFd;
use std::os::unix::net::UnixStream;
use std::process::ExitCode;
use std::ptr::null;

/// `struct iovec`.
#[repr(C)]
struct Bytes {
    start: *const u8,
    len: usize,
}

/// `struct cmsghdr`, and the descriptors that follow it.
#[repr(C)]
struct Rights {
    len: usize,
    level: i32,
    kind: i32,
    descriptors: [i32; 2],
}

/// `struct msghdr` of Linux's 64-bit systems.
#[repr(C)]
struct Message {
    name: *const u8,
    name_len: u32,
    bytes: *const Bytes,
    bytes_len: usize,
    control: *const Rights,
    control_len: usize,
    flags: i32,
}

const SOL_SOCKET: i32 = 1;
const SCM_RIGHTS: i32 = 1;

extern "C" {
    fn sendmsg(socket: i32, message: *const Message, flags: i32) -> isize;
}

/// Sends one byte, and both descriptors with it.
fn lend(listener: &UnixStream) -> io::Result<()> {
    let byte = Bytes { start: b"x".as_ptr(), len: 1 };
    let len = size_of::<Rights>();
    let rights = Rights { len, level: SOL_SOCKET, kind: SCM_RIGHTS, descriptors: [0, 1] };
    let message = Message {
        name: null(),
        name_len: 0,
        bytes: &byte,
        bytes_len: 1,
        control: &rights,
        control_len: len,
        flags: 0,
    };
    // All that the message points to lives until the call is back.
    match unsafe { sendmsg(listener.as_raw_fd(), &message, 0) } {
        1 => Ok(()),
        _ => Err(io::Error::last_os_error()),
    }
}

fn main() -> ExitCode {
    let path = std::env::args_os().nth(1).unwrap_or_default();
    match UnixStream::connect(path).and_then(|listener| lend(&listener)) {
        Ok(()) => ExitCode::SUCCESS,
        Err(error) => {
            eprintln!("lend: {error}");
            ExitCode::FAILURE
        }
    }
}
