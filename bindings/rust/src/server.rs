//! An engine served over sockets.

use crate::lock::Lock;
#[cfg(feature = "ssh")]
use crate::permissions::Owner;
use crate::served::{serve, Listener, Terms, View};
#[cfg(feature = "ssh")]
use crate::taken::Taken;
use crate::{arguments, Connection, Snapshot};
use crate::{Call, Engine, Entry, Error, Faults, GivenRule, Hook, OnCall, Refusal, Rule, Session};
use std::collections::BTreeMap;
use std::fmt;
use std::io;
use std::mem;
use std::net::Shutdown;
use std::os::unix::net::UnixStream;
use std::path::Path;
use std::sync::{Arc, Mutex, PoisonError};
use std::thread;
use std::time::{Duration, Instant, SystemTime};

/// How long to wait at a time for what is notified.
pub(crate) const LONG: Duration = Duration::from_secs(3600);
/// How many calls the message of a timeout shows.
const SHOWN: usize = 5;
/// How many calls are printed if a test panics.
const SHOWN_IN_PANIC: usize = 100;

/// Serves the sessions of an engine, each over a connected socket with its own thread.
///
/// If a clock, a callback or a rule panics, all connections are closed. The next method and `close`
/// return `Error::Stopped` with the panic's message.
///
/// Dropping it closes all its connections. If the test has panicked, it prints the last calls.
pub struct Server {
    shared: Arc<Shared>,
    listeners: Vec<Listener>,
}

impl Server {
    /// Serves this engine. `clock` returns the timestamp of each call: `wall_clock`,
    /// `VirtualTime::clock`, or another function.
    pub fn new(engine: Engine, clock: impl Fn() -> SystemTime + Send + Sync + 'static) -> Self {
        let state = State { engine, lines: BTreeMap::new(), left: false, fault: None };
        let shared = Shared { state: Lock::new(state), clock: Box::new(clock) };
        Self { shared: Arc::new(shared), listeners: Vec::new() }
    }

    /// Opens a session, and returns the client's end of its connection. Dropping that ends the
    /// session.
    pub fn connect(&self) -> io::Result<Connection> {
        self.connect_with(Faults::default())
    }

    /// As `connect`, with these faults.
    pub fn connect_with(&self, faults: Faults) -> io::Result<Connection> {
        self.connect_at("/", faults)
    }

    /// As `connect_with`, for a client that sees the directory `root` of the tree as `/`.
    pub fn connect_at(&self, root: impl AsRef<[u8]>, faults: Faults) -> io::Result<Connection> {
        self.check()?;
        let (ours, theirs) = UnixStream::pair()?;
        let is_cut = Arc::default();
        let view = View { root: root.as_ref().to_vec(), owner: None };
        let session = serve(&self.shared, theirs, &view, faults, Arc::clone(&is_cut))?;
        Ok(Connection { stream: ours, session, chunk: faults.most(), is_cut })
    }

    /// Listens on a new Unix socket at this path: each connection is a session. The socket is
    /// removed when the server is dropped.
    pub fn listen(&mut self, path: impl AsRef<Path>) -> io::Result<()> {
        self.listen_with(path, Faults::default())
    }

    /// As `listen`. Each connection has these faults.
    pub fn listen_with(&mut self, path: impl AsRef<Path>, faults: Faults) -> io::Result<()> {
        self.check()?;
        faults.check()?;
        let view = View { root: b"/".to_vec(), owner: None };
        self.listeners.push(self.listener(path.as_ref(), Terms::new(view, faults))?);
        Ok(())
    }

    pub(crate) fn listener(&self, path: &Path, terms: Arc<Terms>) -> io::Result<Listener> {
        Listener::new(&self.shared, path, terms)
    }

    /// Makes a directory for a user if it is missing, with the clock's timestamp.
    #[cfg(feature = "ssh")]
    pub(crate) fn make_root(&self, path: &[u8], owner: Option<Owner>) -> Result<(), Error> {
        let moment = (self.shared.clock)();
        let path = arguments::path("root", path)?;
        self.with_engine(|engine| {
            if Taken::of(engine)?.object(&path)?.is_some() {
                return Ok(());
            }
            engine.make_directories(&path, moment)?;
            let (uid, gid) = (owner.map(|owner| owner.uid), owner.map(|owner| owner.gid));
            let given = crate::Attributes { uid, gid, ..Default::default() };
            engine.set_attributes(&path, &given, moment)
        })
    }

    /// Calls methods of the engine. Connections are paused meanwhile, so it must not wait for a
    /// client. Connections that were blocked continue afterwards, if they can.
    pub fn with_engine<T>(&self, work: impl FnOnce(&mut Engine) -> T) -> T {
        let done = work(&mut self.shared.state.lock().engine);
        self.shared.state.notify_all();
        done
    }

    /// Makes or replaces files, as `Engine::write_files`, with the clock's timestamp.
    pub fn write_files<P, C, I>(&self, files: I) -> Result<(), Error>
    where
        P: AsRef<[u8]>,
        C: AsRef<[u8]>,
        I: IntoIterator<Item = (P, C)>,
    {
        self.check()?;
        let moment = (self.shared.clock)();
        self.with_engine(|engine| engine.write_files(files, moment))
    }

    /// The whole tree now, as `Engine::snapshot`.
    pub fn snapshot(&self) -> Result<Snapshot, Error> {
        self.check()?;
        Ok(self.with_engine(|engine| engine.snapshot())?)
    }

    /// The records of all calls, as `Engine::calls`.
    pub fn calls(&self) -> Result<Vec<Call>, Error> {
        self.check()?;
        self.with_engine(Engine::calls)
    }

    /// The records that are kept, as `Engine::last_calls`.
    pub fn last_calls(&self) -> Result<Vec<Call>, Error> {
        self.check()?;
        Ok(self.with_engine(Engine::last_calls)?)
    }

    /// How many records were dropped, as `Engine::dropped`.
    pub fn dropped(&self) -> u64 {
        self.with_engine(|engine| engine.dropped())
    }

    /// Injects errors, as `Engine::refuse`.
    pub fn refuse(&self, rule: Rule) -> Result<GivenRule, Error> {
        self.check()?;
        self.with_engine(|engine| engine.refuse(rule))
    }

    /// Calls callbacks before and after calls, as `Engine::on_call`. The engine is locked
    /// meanwhile: no other request is served. So they must not wait for a client.
    pub fn on_call(&self, callbacks: OnCall) -> Result<Hook, Error> {
        self.check()?;
        Ok(self.with_engine(|engine| engine.on_call(callbacks)))
    }

    /// Waits until there is a file or a directory at this path, and no handle for writing that was
    /// opened with this path. Returns its entry, or `Error::TimedOut`.
    pub fn wait_for(&self, path: impl AsRef<[u8]>, timeout: Duration) -> Result<Entry, Error> {
        let path = arguments::path("path", path.as_ref())?;
        let mut seen = None;
        let ready = |engine: &mut Engine| {
            engine.read_news()?;
            let changes = engine.records.changes;
            if seen.replace(changes) == Some(changes) || engine.records.is_written(&path) {
                return Ok(None);
            }
            Ok(engine.snapshot()?.get(&path).cloned())
        };
        let missing = format!("no complete file at {}", path.escape_ascii());
        self.wait_until(ready, timeout, &missing)
    }

    /// Waits for a call for which this returns true, and returns its record, or `Error::TimedOut`.
    /// Earlier calls count too.
    pub fn wait_for_call(
        &self,
        matches: impl Fn(&Call) -> bool,
        timeout: Duration,
    ) -> Result<Call, Error> {
        let news = Arc::new(Mutex::new(Vec::new()));
        let notes = Arc::clone(&news);
        let lock = |news: &Mutex<Vec<Call>>| {
            mem::take(&mut *news.lock().unwrap_or_else(PoisonError::into_inner))
        };
        let note = move |_: &mut Engine, call: &Call| {
            notes.lock().unwrap_or_else(PoisonError::into_inner).push(call.clone());
        };
        let hook = self.with_engine(|engine| {
            let earlier = engine.last_calls()?;
            news.lock().unwrap_or_else(PoisonError::into_inner).extend(earlier);
            Ok::<Hook, Refusal>(engine.on_call(OnCall::default().after(note)))
        })?;
        let ready = |_: &mut Engine| Ok(lock(&news).into_iter().find(|call| matches(call)));
        let found = self.wait_until(ready, timeout, "no such call");
        hook.end();
        found
    }

    /// Ends all connections, and waits for their threads. Returns the error that stopped the
    /// server, if any.
    pub fn close(self) -> Result<(), Error> {
        self.end();
        self.check()
    }

    fn wait_until<T>(
        &self,
        mut ready: impl FnMut(&mut Engine) -> Result<Option<T>, Error>,
        timeout: Duration,
        missing: &str,
    ) -> Result<T, Error> {
        let begin = Instant::now();
        let mut state = self.shared.state.lock();
        loop {
            state.check()?;
            if let Some(found) = ready(&mut state.engine)? {
                return Ok(found);
            }
            let left = timeout.saturating_sub(begin.elapsed());
            if left == Duration::ZERO {
                let calls = last_lines(&mut state.engine, SHOWN);
                return Err(Error::TimedOut(format!("{} within {:?}{}", missing, timeout, calls)));
            }
            state = state.wait(left.min(LONG));
        }
    }

    fn check(&self) -> Result<(), Error> {
        self.shared.state.lock().check()
    }

    /// Ends all connections at both ends, and waits for their threads.
    fn end(&self) {
        self.shared.stop(None);
        let mut state = self.shared.state.lock();
        while !state.lines.is_empty() {
            state = state.wait(LONG);
        }
    }
}

/// The last calls, at most this many.
fn last_lines(engine: &mut Engine, most: usize) -> String {
    let calls = engine.last_calls().unwrap_or_default();
    if calls.is_empty() {
        return "; no client made a call".to_string();
    }
    let first = calls.len().saturating_sub(most);
    let lines = calls[first..].iter().map(|call| format!("\n  {}", call));
    format!("; the last calls:{}", lines.collect::<String>())
}

impl fmt::Debug for Server {
    fn fmt(&self, f: &mut fmt::Formatter<'_>) -> fmt::Result {
        let sessions = self.shared.state.lock().lines.len();
        f.debug_struct("Server").field("sessions", &sessions).finish_non_exhaustive()
    }
}

impl Drop for Server {
    fn drop(&mut self) {
        self.shared.stop(None);
        self.listeners.clear();
        self.end();
        if thread::panicking() {
            let calls = self.with_engine(|engine| last_lines(engine, SHOWN_IN_PANIC));
            eprintln!("lucernetick{}", calls);
        }
    }
}

/// The state shared by a server and its threads. It is notified after progress of a session, and
/// when a connection or the server closes.
pub(crate) struct Shared {
    pub(crate) state: Lock<State>,
    pub(crate) clock: Box<dyn Fn() -> SystemTime + Send + Sync>,
}

pub(crate) struct State {
    pub(crate) engine: Engine,
    /// The server's ends of the open connections.
    pub(crate) lines: BTreeMap<Session, UnixStream>,
    /// The server was dropped, or stopped by an error.
    pub(crate) left: bool,
    fault: Option<Error>,
}

impl State {
    pub(crate) fn check(&self) -> Result<(), Error> {
        self.fault.clone().map_or(Ok(()), Err)
    }
}

impl Shared {
    /// Ends all connections at both ends.
    pub(crate) fn stop(&self, fault: Option<Error>) {
        let mut state = self.state.lock();
        state.left = true;
        if state.fault.is_none() {
            state.fault = fault;
        }
        for line in state.lines.values() {
            // Its client may have ended it before.
            let _ = line.shutdown(Shutdown::Both);
        }
        self.state.notify_all();
    }
}
