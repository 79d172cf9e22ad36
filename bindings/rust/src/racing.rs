//! The scheduler of a race.

use crate::arguments::unix_time;
use crate::draws::{SplitMix64, Unanswered};
use crate::{Engine, Error, Refusal, Session, Turn, VirtualTime};
use std::collections::VecDeque;
use std::io::{self, ErrorKind};
use std::thread::{self, ThreadId};
use std::time::{Duration, Instant};

const MOMENT: u32 = 1_000_000_000;
const PATIENCE: Duration = Duration::from_secs(30);
/// How long a thread may wait for a client that only it has used.
pub(crate) const GRACE: Duration = Duration::from_secs(2);

pub(crate) struct State {
    pub(crate) engine: Engine,
    pub(crate) choice: Choice,
    /// How many will connect.
    pub(crate) clients: usize,
    pub(crate) racers: Vec<Racer>,
    pub(crate) turns: Vec<RaceTurn>,
    pub(crate) stray: Option<String>,
    pub(crate) patience: Duration,
    /// When a client last acted.
    pub(crate) since: Instant,
    pub(crate) time: VirtualTime,
    /// The race was dropped.
    pub(crate) has_gone: bool,
    pub(crate) fault: Option<Error>,
}

/// A turn: its client, what it did, and how many calls were recorded until its end.
pub(crate) struct RaceTurn {
    pub(crate) client: usize,
    pub(crate) turn: Turn,
    pub(crate) recorded: u64,
}

/// How the client of the next turn is chosen.
pub(crate) enum Choice {
    Drawn(SplitMix64),
    Given(VecDeque<usize>),
}

impl State {
    pub(crate) fn new(engine: Engine, choice: Choice, clients: usize) -> Result<Self, Error> {
        Ok(Self {
            engine,
            choice,
            clients,
            racers: Vec::new(),
            turns: Vec::new(),
            stray: None,
            patience: PATIENCE,
            since: Instant::now(),
            time: VirtualTime::new(unix_time(MOMENT))?,
            has_gone: false,
            fault: None,
        })
    }

    pub(crate) fn check(&self) -> Result<(), Error> {
        self.fault.clone().map_or(Ok(()), Err)
    }

    /// An error if a thread that reads waits for a client that only it has used, so for itself.
    pub(crate) fn check_threads(&self, number: usize, begin: Instant) -> io::Result<()> {
        let here = Some(thread::current().id());
        let is_own = |other: &usize| {
            let racer = &self.racers[*other];
            *other != number && racer.is_awaited() && racer.thread == here
        };
        match (0..self.racers.len()).find(is_own) {
            Some(other) if begin.elapsed() >= GRACE.min(self.patience) => {
                let why = format!(
                    "client {} waits for client {}, which the same thread uses: use each stream in \
                     its own thread",
                    number + 1,
                    other + 1
                );
                Err(io::Error::new(ErrorKind::Other, why))
            }
            _ => Ok(()),
        }
    }

    /// Runs turns as long as every client waits for a reply or has left.
    pub(crate) fn advance(&mut self) {
        while let Some(number) = self.next() {
            let turn = self.turn(number);
            let recorded = self.engine.records.recorded;
            self.turns.push(RaceTurn { client: number + 1, turn, recorded });
        }
        self.since = Instant::now();
    }

    /// The client of the next turn, if any.
    fn next(&mut self) -> Option<usize> {
        let is_awaited = |racer: &Racer| racer.is_awaited() && !racer.is_late;
        let is_early = self.racers.len() < self.clients;
        if self.fault.is_some() || is_early || self.racers.iter().any(is_awaited) {
            return None;
        }
        let waiting = self.waiting();
        if waiting.is_empty() {
            return None;
        }
        Some(self.choose(&waiting))
    }

    /// The clients that wait for a reply.
    fn waiting(&self) -> Vec<usize> {
        (0..self.racers.len()).filter(|number| self.racers[*number].waits()).collect()
    }

    fn choose(&mut self, waiting: &[usize]) -> usize {
        let given = match &mut self.choice {
            Choice::Drawn(drawn) => {
                let count = waiting.len() as u64;
                return waiting[(drawn.draw() % count) as usize];
            }
            Choice::Given(schedule) => schedule.pop_front(),
        };
        match waiting.iter().find(|number| Some(**number + 1) == given) {
            Some(number) => *number,
            None => {
                self.strays("the schedule has no turn of a client that waits".to_string());
                waiting[0]
            }
        }
    }

    /// Runs a turn of this client's session. A client that has dropped its stream leaves after its
    /// last reply.
    fn turn(&mut self, number: usize) -> Turn {
        let session = self.racers[number].session;
        let turn = self.engine.turn(session, self.time.now());
        let racer = &mut self.racers[number];
        match &turn {
            Ok(Turn::Wrote) => racer.packets.answered(),
            Ok(Turn::Ended(_)) => racer.has_ended = true,
            Ok(_) => {}
            Err(fault) => racer.end(Some(fault.clone())),
        }
        self.leave(number);
        turn.unwrap_or(Turn::Idle)
    }

    /// Ends the session of a client that has dropped its stream and waits for no reply.
    pub(crate) fn leave(&mut self, number: usize) {
        let racer = &mut self.racers[number];
        if racer.is_dropped && !racer.has_ended && !racer.waits() {
            racer.end(self.engine.close(racer.session).err().map(Error::from));
        }
    }

    pub(crate) fn feed(&mut self, number: usize, bytes: &[u8]) -> Result<(), Refusal> {
        let racer = &mut self.racers[number];
        self.engine.feed(racer.session, bytes)?;
        racer.packets.feed(bytes);
        racer.is_late = false;
        Ok(())
    }

    /// Takes the first bytes of the pending output, as many as fit. If there are none, returns the
    /// error of an earlier turn.
    pub(crate) fn take(&mut self, number: usize, room: &mut [u8]) -> Result<usize, Error> {
        let racer = &mut self.racers[number];
        let count = self.engine.look(racer.session, room)?.min(room.len());
        self.engine.sent(racer.session, count)?;
        match &racer.fault {
            Some(fault) if count == 0 => Err(fault.clone()),
            _ => Ok(count),
        }
    }

    /// Skips the clients that the race waits for, if others wait.
    pub(crate) fn pass_over(&mut self) {
        let late: Vec<usize> =
            (0..self.racers.len()).filter(|number| self.racers[*number].is_awaited()).collect();
        if self.waiting().is_empty() || late.is_empty() {
            return;
        }
        let names: Vec<_> = late.iter().map(|number| (number + 1).to_string()).collect();
        let (names, patience) = (names.join(" and "), self.patience);
        self.strays(format!("client {} neither sent nor left for {:?}", names, patience));
        for number in late {
            self.racers[number].is_late = true;
        }
    }

    fn strays(&mut self, why: String) {
        let turn = self.turns.len() + 1;
        self.stray.get_or_insert_with(|| format!("before turn {}: {}", turn, why));
    }
}

/// A client.
pub(crate) struct Racer {
    pub(crate) session: Session,
    packets: Unanswered,
    /// Its stream was dropped.
    pub(crate) is_dropped: bool,
    /// Its session has no more turns.
    pub(crate) has_ended: bool,
    /// It was skipped.
    is_late: bool,
    /// The error that ended its session.
    fault: Option<Error>,
    /// The thread that last used its stream.
    pub(crate) thread: Option<ThreadId>,
}

impl Racer {
    pub(crate) fn new(session: Session) -> Self {
        let packets = Unanswered::default();
        let (is_dropped, has_ended, is_late) = (false, false, false);
        Self { session, packets, is_dropped, has_ended, is_late, fault: None, thread: None }
    }

    /// Whether the client waits for a reply.
    fn waits(&self) -> bool {
        !self.has_ended && !self.packets.is_empty()
    }

    /// Whether the race waits for the client.
    fn is_awaited(&self) -> bool {
        !self.waits() && !self.has_ended
    }

    fn end(&mut self, fault: Option<Error>) {
        self.has_ended = true;
        self.fault = fault;
    }
}
