//! The threads of a server: one for each session, and one for each listening socket.

use crate::line::Line;
use crate::lock::Guard;
use crate::permissions::Owner;
use crate::server::{Shared, State, LONG};
#[cfg(feature = "ssh")]
use crate::RaceStream;
use crate::{arguments, Error, Faults, Refusal, Rule, Session, Turn};
use std::any::Any;
use std::fs;
use std::io::{self, ErrorKind};
use std::net::Shutdown;
use std::os::unix::io::OwnedFd;
use std::os::unix::net::{UnixListener, UnixStream};
use std::panic::{catch_unwind, AssertUnwindSafe};
use std::path::{Path, PathBuf};
use std::sync::atomic::AtomicBool;
use std::sync::{Arc, Mutex, MutexGuard, PoisonError};
use std::thread::{self, JoinHandle};
use std::time::Duration;

const PIECE: usize = 65536;
/// How long to wait after a failed accept.
const PAUSE: Duration = Duration::from_millis(10);

/// What a client sees: the directory `root` as `/`, with permissions if it has an owner.
#[derive(Debug)]
pub(crate) struct View {
    pub(crate) root: Vec<u8>,
    pub(crate) owner: Option<Owner>,
}

impl View {
    /// Whether it is the whole tree, without permissions.
    #[cfg(feature = "ssh")]
    pub(crate) fn is_whole(&self) -> bool {
        arguments::normal(&self.root) == b"/" && self.owner.is_none()
    }
}

/// Opens a session, and serves it over this socket in its own thread.
pub(crate) fn serve(
    shared: &Arc<Shared>,
    line: UnixStream,
    view: &View,
    faults: Faults,
    is_cut: Arc<AtomicBool>,
) -> io::Result<Session> {
    faults.check()?;
    let served = Served::new(shared, line.try_clone()?, view)?;
    let session = served.session;
    let name = format!("lucernetick session {}", session.number());
    let work = move || {
        let pump = AssertUnwindSafe(|| served.pump(&mut Line::new(line, faults, is_cut)));
        let fault = match catch_unwind(pump) {
            Ok(Ok(())) => None,
            Ok(Err(fault)) => Some(fault),
            Err(panic) => Some(stopped(panic.as_ref())),
        };
        if fault.is_some() {
            served.shared.stop(fault);
        }
    };
    thread::Builder::new().name(name).spawn(work)?;
    Ok(session)
}

/// The error of a panic.
pub(crate) fn stopped(panic: &(dyn Any + Send)) -> Error {
    let text = panic.downcast_ref::<String>().map(String::as_str);
    let text = text.or_else(|| panic.downcast_ref::<&str>().copied());
    Error::Stopped(format!("a thread panicked: {}", text.unwrap_or("(no text)")))
}

/// A session served over a socket.
struct Served {
    shared: Arc<Shared>,
    session: Session,
}

impl Served {
    fn new(shared: &Arc<Shared>, line: UnixStream, view: &View) -> io::Result<Self> {
        let mut state = shared.state.lock();
        state.check()?;
        if state.left {
            return Err(ErrorKind::NotConnected.into());
        }
        let session = state.engine.open_at(&view.root)?;
        if let Some(owner) = view.owner {
            let rule = Rule::enforce_permissions(owner.uid, owner.gid).session(session);
            state.engine.refuse(rule)?;
        }
        state.lines.insert(session, line);
        Ok(Self { shared: Arc::clone(shared), session })
    }

    /// Forwards bytes in both directions, until the client, the session or the server ends. Only
    /// errors of the engine or the clock are errors.
    fn pump(&self, line: &mut Line) -> Result<(), Error> {
        let mut room = vec![0; PIECE];
        while let Ok(count @ 1..) = line.read(&mut room) {
            let fed = self.shared.state.lock().engine.feed(self.session, &room[..count]);
            match fed {
                Err(Refusal::HasEnded) => break,
                fed => fed?,
            }
            if !self.answer(line)? {
                break;
            }
        }
        // Its client may have closed it before.
        let _ = line.end();
        Ok(())
    }

    /// Sends the replies to all complete packets. Returns whether the session continues. They take
    /// effect also if nobody receives the replies.
    fn answer(&self, line: &mut Line) -> Result<bool, Error> {
        while let Some((turn, output)) = self.reply()? {
            line.write_all(&output);
            if turn != Turn::Spent {
                return Ok(turn == Turn::Idle);
            }
        }
        Ok(false)
    }

    /// Runs turns until a reply is written, no complete packet is buffered, or the session has
    /// ended. If another session's call blocks this one, it waits for progress. Calls are completed
    /// before their replies are sent, so a slow client delays no others. None if the server has
    /// ended.
    fn reply(&self) -> Result<Option<(Turn, Vec<u8>)>, Error> {
        let mut state = self.shared.state.lock();
        while !state.left {
            match self.settle(&mut state)? {
                Turn::Blocked => state = state.wait(LONG),
                turn => return Ok(Some((turn, state.engine.take(self.session)?))),
            }
        }
        Ok(None)
    }

    /// Runs turns up to a reply. After progress it wakes blocked sessions.
    fn settle(&self, state: &mut Guard<'_, State>) -> Result<Turn, Error> {
        let moment = (self.shared.clock)();
        arguments::seconds("the clock's result", moment)
            .map_err(|fault| Error::Stopped(fault.to_string()))?;
        let (turn, moved) = state.engine.settle_moving(self.session, moment, 1);
        if moved {
            self.shared.state.notify_all();
        }
        turn
    }
}

impl Drop for Served {
    /// Ends the session.
    fn drop(&mut self) {
        let mut state = self.shared.state.lock();
        // This cannot fail, since the session exists.
        let _ = state.engine.close(self.session);
        state.lines.remove(&self.session);
        self.shared.state.notify_all();
    }
}

/// What the clients of a listener see, and the faults of those from now on.
pub(crate) struct Terms {
    view: View,
    faults: Mutex<Faults>,
}

impl Terms {
    pub(crate) fn new(view: View, faults: Faults) -> Arc<Self> {
        Arc::new(Self { view, faults: Mutex::new(faults) })
    }

    pub(crate) fn faults(&self) -> MutexGuard<'_, Faults> {
        self.faults.lock().unwrap_or_else(PoisonError::into_inner)
    }
}

/// A thread that accepts the connections to a socket.
pub(crate) struct Listener {
    path: PathBuf,
    /// The listening socket, for shutdown.
    socket: UnixStream,
    thread: Option<JoinHandle<()>>,
}

impl Listener {
    /// Each connection is a session of a server.
    pub(crate) fn new(shared: &Arc<Shared>, path: &Path, terms: Arc<Terms>) -> io::Result<Self> {
        let shared = Arc::clone(shared);
        Self::calling(path, move |line| {
            let faults = *terms.faults();
            // The connection is closed if it cannot be served.
            let _ = serve(&shared, line, &terms.view, faults, Arc::default());
        })
    }

    /// The first connection is that of a client in a race. Further ones are closed.
    #[cfg(feature = "ssh")]
    pub(crate) fn of_racer(path: &Path, stream: RaceStream) -> io::Result<Self> {
        let mut waiting = Some(stream);
        Self::calling(path, move |line| {
            if let Some(stream) = waiting.take() {
                // Without a thread, it is closed.
                let _ = stream.forward(line);
            }
        })
    }

    /// Calls a function with each connection.
    fn calling(
        path: &Path,
        mut serve: impl FnMut(UnixStream) + Send + 'static,
    ) -> io::Result<Self> {
        let listener = UnixListener::bind(path)?;
        let socket = UnixStream::from(OwnedFd::from(listener.try_clone()?));
        let work = move || {
            for line in listener.incoming() {
                match line {
                    Ok(line) => serve(line),
                    // It was dropped.
                    Err(fault) if fault.kind() == ErrorKind::InvalidInput => return,
                    Err(_) => thread::sleep(PAUSE),
                }
            }
        };
        let thread = thread::Builder::new().name("lucernetick listener".to_string()).spawn(work)?;
        Ok(Self { path: path.to_path_buf(), socket, thread: Some(thread) })
    }
}

impl Drop for Listener {
    /// Waits for the accepting thread.
    fn drop(&mut self) {
        // These fail if somebody else removed the path, or the thread panicked.
        let _ = fs::remove_file(&self.path);
        let _ = self.socket.shutdown(Shutdown::Both);
        if let Some(thread) = self.thread.take() {
            let _ = thread.join();
        }
    }
}
