//! An in-memory SFTP server, version 3, for tests.
//!
//! ```
//! use lucernetick::{unix_time, wall_clock, Client, Engine, Server};
//!
//! let engine = Engine::from_files([("/a/b", "contents")], unix_time(100))?;
//! let server = Server::new(engine, wall_clock);
//! let mut client = Client::new(server.connect()?)?;
//! client.rename("/a/b", "/c")?;
//! let tree = server.snapshot()?;
//! assert!(tree.paths().eq(["/", "/a", "/c"]));
//! assert_eq!(tree["/c"].contents().as_deref(), Some(&b"contents"[..]));
//! # Ok::<(), std::io::Error>(())
//! ```
//!
//! An [`Engine`] is the server without threads, sockets or a clock: the caller feeds a session
//! bytes, gives it turns, and sends its output. The same calls produce the same bytes each time. A
//! [`Server`] serves an engine over connected sockets. [`Races`] runs concurrent clients under a
//! seeded scheduler.

mod arguments;
mod asking;
mod calls;
mod client;
mod clock;
mod connection;
mod draws;
mod engine;
mod fault;
mod faults;
mod folders;
mod hooks;
mod line;
mod linux;
mod lock;
mod patterns;
mod permissions;
mod races;
mod racing;
mod reading;
mod records;
mod requests;
mod rules;
mod schedules;
mod served;
mod server;
#[cfg(feature = "ssh")]
mod ssh;
mod taken;
mod timeline;
mod tree;
mod turn;
#[cfg(feature = "ssh")]
mod users;
mod wire;

pub use arguments::unix_time;
pub use calls::{Answer, Attributes, Call, Kind, OpenFlag};
pub use client::Client;
pub use clock::{wall_clock, VirtualTime};
pub use connection::Connection;
pub use engine::{Engine, Session};
pub use fault::{Error, Refusal};
pub use faults::Faults;
pub use folders::FolderOptions;
pub use hooks::{Hook, OnCall};
pub use patterns::escape;
pub use races::{RaceStream, Races};
pub use requests::Request;
pub use rules::{GivenRule, Rule, Status};
pub use server::Server;
#[cfg(feature = "ssh")]
pub use ssh::SshServer;
pub use tree::{Entry, Piece, Snapshot};
pub use turn::{Ending, Turn};
#[cfg(feature = "ssh")]
pub use users::{SshOptions, User};

use lucernetick_sys as sys;
use std::ffi::CStr;
use std::os::raw::c_char;

/// The library's version.
pub fn version() -> &'static str {
    // SAFETY: the library returns a static text.
    text(unsafe { sys::lt_version() })
}

/// The library's text of a result.
pub(crate) fn message(answer: i64) -> &'static str {
    // SAFETY: as above.
    text(unsafe { sys::lt_message(answer) })
}

fn text(pointer: *const c_char) -> &'static str {
    // SAFETY: both callers pass a static, NUL-terminated text.
    unsafe { CStr::from_ptr(pointer) }.to_str().unwrap_or("")
}

/// A result of the library as a number or an error.
fn checked(answer: i64) -> Result<u64, Refusal> {
    u64::try_from(answer).map_err(|_| Refusal::of_number(answer))
}
