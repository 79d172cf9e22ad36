//! A plain copier, the limit for `sftpd connect`: carries standard input and output to and from a
//! Unix socket, a thread for each way and 256 KiB at a time:
//!
//!   copier PATH

use std::fs::File;
use std::io::{stdin, stdout, Read, Result, Write};
use std::net::Shutdown;
use std::os::fd::AsFd;
use std::os::unix::net::UnixStream;
use std::thread;

fn carry(from: &mut dyn Read, to: &mut dyn Write) -> Result<()> {
    let mut piece = vec![0; 1 << 18];
    loop {
        match from.read(&mut piece)? {
            0 => return Ok(()),
            count => to.write_all(&piece[..count])?,
        }
    }
}

fn main() -> Result<()> {
    let path = std::env::args_os().nth(1).unwrap_or_default();
    let stream = UnixStream::connect(path)?;
    let mut input = File::from(stdin().as_fd().try_clone_to_owned()?);
    let mut output = File::from(stdout().as_fd().try_clone_to_owned()?);
    let other = stream.try_clone()?;
    let sender = thread::spawn(move || {
        carry(&mut input, &mut &other)?;
        other.shutdown(Shutdown::Write)
    });
    carry(&mut &stream, &mut output)?;
    sender.join().unwrap()
}
