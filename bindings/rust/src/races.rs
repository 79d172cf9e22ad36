//! Concurrent clients under a seeded scheduler.

use crate::arguments::in_range;
use crate::draws::SplitMix64;
use crate::lock::{Guard, Lock};
use crate::racing::{Choice, Racer, State, GRACE};
use crate::schedules::{read_schedule, write_schedule};
use crate::served::stopped;
use crate::timeline::page;
use crate::{Call, Engine, Error, GivenRule, Rule, Snapshot, Turn, VirtualTime};
use std::fmt;
use std::fs;
use std::io::{self, ErrorKind, Read, Write};
#[cfg(feature = "ssh")]
use std::net::Shutdown;
#[cfg(feature = "ssh")]
use std::os::unix::net::UnixStream;
use std::panic::{catch_unwind, AssertUnwindSafe};
use std::path::Path;
use std::sync::Arc;
use std::thread;
use std::time::{Duration, Instant};

/// How many sessions an engine has at most.
const SESSIONS: u64 = 256;

/// Runs concurrent clients, each in its own thread, under a seeded scheduler: the same seed gives
/// the same interleaving, at any speed of the threads.
///
/// A session has a turn, which is one step of a call, only when every client waits for a reply or
/// has dropped its stream. The scheduler picks one of the waiting clients. So drop a stream when
/// its client is done; until then the others wait. A client that neither sends nor drops its stream
/// for longer than the patience is skipped until it sends again. `stray` then says so.
///
/// If a rule or a callback panics, all streams end. Their next method, and that of the race,
/// returns `Error::Stopped` with the panic's message.
///
/// ```
/// use lucernetick::{Client, Races};
///
/// let races = Races::new(7, 2)?;
/// let streams = [races.connect()?, races.connect()?];
/// std::thread::scope(|scope| {
///     for (stream, path) in streams.into_iter().zip(["/a", "/b"]) {
///         scope.spawn(move || Client::new(stream)?.make_directory(path));
///     }
/// });
/// assert!(races.snapshot()?.paths().eq(["/", "/a", "/b"]));
/// assert_eq!(races.stray(), None);
/// # Ok::<(), std::io::Error>(())
/// ```
pub struct Races {
    shared: Arc<Shared>,
    /// The seed or the schedule, as a text.
    name: String,
}

impl Races {
    /// A race of this number of clients, from 1 to 256, on an empty file system.
    pub fn new(seed: u64, clients: usize) -> Result<Self, Error> {
        Self::over(Engine::new()?, seed, clients)
    }

    /// A race of this number of clients on this engine.
    pub fn over(engine: Engine, seed: u64, clients: usize) -> Result<Self, Error> {
        let name = format!("seed {}", seed);
        Self::by(engine, Choice::Drawn(SplitMix64::new(seed)), clients, name)
    }

    /// Replays a schedule that `schedule` returned, also one of another language. If the schedule
    /// names no waiting client, the first waiting one has the turn, and `stray` says so.
    pub fn replay(engine: Engine, schedule: &str, clients: usize) -> Result<Self, Error> {
        let choice = Choice::Given(read_schedule(schedule)?);
        Self::by(engine, choice, clients, "a schedule".to_string())
    }

    fn by(engine: Engine, choice: Choice, clients: usize, name: String) -> Result<Self, Error> {
        in_range("clients", clients as u64, 1, SESSIONS)?;
        let state = State::new(engine, choice, clients)?;
        Ok(Self { shared: Arc::new(Shared { state: Lock::new(state) }), name })
    }

    /// Opens the session of the next client: 1, 2, 3 and so on. Connect all clients before one of
    /// them is used, since turns depend on their numbers.
    pub fn connect(&self) -> io::Result<RaceStream> {
        let mut state = self.shared.state.lock();
        state.check()?;
        let number = state.racers.len();
        if number == state.clients {
            let why = format!("all {} clients of the race are connected", number);
            return Err(io::Error::new(ErrorKind::Other, why));
        }
        let session = state.engine.open()?;
        state.racers.push(Racer::new(session));
        Ok(RaceStream { shared: Arc::clone(&self.shared), number })
    }

    /// The turns so far: the client, and what the turn did.
    pub fn turns(&self) -> Vec<(usize, Turn)> {
        let state = self.shared.state.lock();
        state.turns.iter().map(|one| (one.client, one.turn)).collect()
    }

    /// The clients of the turns so far, as `1x4 2 1x2`: four turns of client 1, one of client 2,
    /// two of client 1.
    pub fn schedule(&self) -> String {
        let turns = self.turns();
        let clients: Vec<usize> = turns.iter().map(|(client, _)| *client).collect();
        write_schedule(&clients)
    }

    /// Why the race is not reproducible: a client was skipped, or a turn of a schedule is missing.
    /// None if it is.
    pub fn stray(&self) -> Option<String> {
        self.shared.state.lock().stray.clone()
    }

    /// The clock of all turns: 1000000000 seconds after 1970, which is in 2001, until it is set.
    pub fn time(&self) -> VirtualTime {
        self.shared.state.lock().time.clone()
    }

    /// How long the scheduler waits for a client that neither sends nor leaves: 30 seconds until it
    /// is set.
    pub fn set_patience(&self, patience: Duration) {
        self.shared.state.lock().patience = patience;
    }

    /// Calls methods of the engine, before the clients run or after they have left. During the race
    /// calls may be in progress, and no other session may have a turn.
    pub fn with_engine<T>(&self, work: impl FnOnce(&mut Engine) -> T) -> T {
        work(&mut self.shared.state.lock().engine)
    }

    /// The whole tree now, as `Engine::snapshot`.
    pub fn snapshot(&self) -> Result<Snapshot, Error> {
        self.check()?;
        Ok(self.with_engine(|engine| engine.snapshot())?)
    }

    /// The records of all calls, as `Engine::calls`.
    pub fn calls(&self) -> Result<Vec<Call>, Error> {
        self.check()?;
        self.with_engine(Engine::calls)
    }

    /// Writes the history of the race as a page of HTML, which needs no other file: a row for each
    /// client, its calls as bars from request to reply, their linearization points, and arrows from
    /// a call to those that it completed for other clients.
    pub fn timeline(&self, path: impl AsRef<Path>) -> io::Result<()> {
        let mut state = self.shared.state.lock();
        state.check()?;
        let calls = state.engine.calls()?;
        fs::write(path, page(&state, &calls, &self.name))
    }

    /// Injects errors, as `Engine::refuse`.
    pub fn refuse(&self, rule: Rule) -> Result<GivenRule, Error> {
        self.check()?;
        self.with_engine(|engine| engine.refuse(rule))
    }

    /// Ends all streams. Returns the error that stopped the race, if any.
    pub fn close(self) -> Result<(), Error> {
        self.check()
    }

    fn check(&self) -> Result<(), Error> {
        self.shared.state.lock().check()
    }
}

impl fmt::Debug for Races {
    fn fmt(&self, f: &mut fmt::Formatter<'_>) -> fmt::Result {
        f.debug_struct("Races")
            .field("schedule", &self.schedule())
            .field("stray", &self.stray())
            .finish()
    }
}

impl Drop for Races {
    /// Ends all streams.
    fn drop(&mut self) {
        self.shared.state.lock().has_gone = true;
        self.shared.state.notify_all();
    }
}

/// The stream of a client in a race. When it is dropped, requests already sent still take effect.
///
/// Writes never block. Reads block until a reply; after the session's last one they return 0.
#[derive(Debug)]
pub struct RaceStream {
    shared: Arc<Shared>,
    /// The index of its client among the racers.
    number: usize,
}

impl RaceStream {
    /// The state, if this stream may be used.
    fn used(&self) -> io::Result<Guard<'_, State>> {
        let mut state = self.shared.state.lock();
        state.check()?;
        if state.racers.len() < state.clients {
            let why = format!(
                "client {} is used, and {} of {} clients are connected: first call connect() {2} \
                 times, then use each stream in its own thread",
                self.number + 1,
                state.racers.len(),
                state.clients
            );
            return Err(io::Error::new(ErrorKind::Other, why));
        }
        state.racers[self.number].thread = Some(thread::current().id());
        Ok(state)
    }

    /// Its client sends no more.
    fn leave(&self) {
        let mut state = self.shared.state.lock();
        state.racers[self.number].is_dropped = true;
        state.leave(self.number);
        self.shared.advance(&mut state);
    }
}

#[cfg(feature = "ssh")]
impl RaceStream {
    /// Connects it with a socket: bytes are forwarded in both directions, by two threads.
    pub(crate) fn forward(self, line: UnixStream) -> io::Result<()> {
        let (mut from, mut to) = (line.try_clone()?, line);
        let requests = Arc::new(self);
        let replies = Arc::clone(&requests);
        let name = |what| format!("lucernetick client {} {}", requests.number + 1, what);
        let (first, second) = (name("requests"), name("replies"));
        thread::Builder::new().name(second).spawn(move || {
            // If the client does not read, it leaves.
            let _ = io::copy(&mut &*replies, &mut to);
            replies.leave();
            let _ = to.shutdown(Shutdown::Both);
        })?;
        let work = move || {
            let _ = io::copy(&mut from, &mut &*requests);
            requests.leave();
        };
        thread::Builder::new().name(first).spawn(work).map(drop)
    }
}

impl Read for &RaceStream {
    fn read(&mut self, room: &mut [u8]) -> io::Result<usize> {
        if room.is_empty() {
            return Ok(0);
        }
        let mut state = self.used()?;
        let begin = Instant::now();
        loop {
            let count = state.take(self.number, room)?;
            if count > 0 || state.has_gone || state.racers[self.number].has_ended {
                return Ok(count);
            }
            state.check()?;
            state.check_threads(self.number, begin)?;
            state = self.shared.wait(state);
        }
    }
}

impl Write for &RaceStream {
    fn write(&mut self, bytes: &[u8]) -> io::Result<usize> {
        let mut state = self.used()?;
        if state.has_gone || state.racers[self.number].has_ended {
            return Err(ErrorKind::BrokenPipe.into());
        }
        state.feed(self.number, bytes)?;
        self.shared.advance(&mut state);
        state.check()?;
        Ok(bytes.len())
    }

    fn flush(&mut self) -> io::Result<()> {
        Ok(())
    }
}

impl Read for RaceStream {
    fn read(&mut self, room: &mut [u8]) -> io::Result<usize> {
        (&*self).read(room)
    }
}

impl Write for RaceStream {
    fn write(&mut self, bytes: &[u8]) -> io::Result<usize> {
        (&*self).write(bytes)
    }

    fn flush(&mut self) -> io::Result<()> {
        Ok(())
    }
}

impl Drop for RaceStream {
    fn drop(&mut self) {
        self.leave();
    }
}

/// The state shared by a race and its streams. It is notified after turns, and when the race is
/// dropped.
struct Shared {
    state: Lock<State>,
}

impl fmt::Debug for Shared {
    fn fmt(&self, f: &mut fmt::Formatter<'_>) -> fmt::Result {
        f.write_str("..")
    }
}

impl Shared {
    /// Runs all possible turns, after an action of a client. If a turn panics, all streams end.
    fn advance(&self, state: &mut State) {
        let turns = catch_unwind(AssertUnwindSafe(|| state.advance()));
        if let Err(panic) = turns {
            state.fault = Some(stopped(panic.as_ref()));
        }
        self.state.notify_all();
    }

    /// Waits for progress, or until the patience ends.
    fn wait<'a>(&self, state: Guard<'a, State>) -> Guard<'a, State> {
        let left = state.patience.saturating_sub(state.since.elapsed());
        let mut state = state.wait(left.min(GRACE));
        if state.since.elapsed() >= state.patience {
            state.pass_over();
            self.advance(&mut state);
        }
        state
    }
}
