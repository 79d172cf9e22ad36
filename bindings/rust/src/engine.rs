//! An engine and its sessions: bytes and timestamps in, bytes out.

use crate::arguments::seconds;
use crate::hooks::Hooks;
use crate::permissions::{Owner, Permissions};
use crate::records::Records;
use crate::requests::{below_root, read_request, realpath, with_ids, Request};
use crate::rules::{ActiveRule, Status};
use crate::taken::Taken;
use crate::wire::Packets;
use crate::{arguments, checked, Error, Kind, Refusal, Turn};
use lucernetick_sys as sys;
use std::collections::hash_map::RandomState;
use std::collections::BTreeMap;
use std::fmt;
use std::hash::{BuildHasher, Hasher};
use std::ptr::NonNull;
use std::time::SystemTime;

/// One file system and any number of sessions on it.
pub struct Engine {
    pub(crate) pointer: NonNull<sys::Engine>,
    pub(crate) records: Records,
    pub(crate) hooks: Hooks,
    /// Of each session that has not ended: what its client sent, and the library has not read.
    packets: BTreeMap<Session, Packets>,
    /// The directory that a session's client sees as `/`, if it is another one.
    roots: BTreeMap<Session, Vec<u8>>,
    rules: Vec<ActiveRule>,
    /// A path that no client knows. The library replies to REALPATH of it, with the code of a
    /// status at its end, with that status: so a rejected request gets its reply.
    lost: Vec<u8>,
    /// The statuses for which the library has such a rule.
    statuses: Vec<Status>,
    /// A snapshot with the names and attributes of now, for permissions.
    modes: Option<Taken>,
}

// SAFETY: any thread may call the library on an engine, one call at a time, which `&mut self`
// ensures. The callbacks and the functions of rules are `Send`.
unsafe impl Send for Engine {}

/// A session of an engine.
#[derive(Clone, Copy, Debug, PartialEq, Eq, PartialOrd, Ord, Hash)]
pub struct Session(pub(crate) u64);

impl Session {
    /// 1 for an engine's first session, then 2, 3 and so on, as in `Call::session`.
    pub fn number(self) -> u64 {
        self.0
    }
}

impl Engine {
    /// An engine with an empty root. It retains the records of all calls. Records take memory,
    /// including the bytes written and read.
    pub fn new() -> Result<Self, Refusal> {
        Self::with_keep(0)
    }

    /// As `new`, but it retains the records of its last `keep` calls, or of all calls if `keep` is
    /// 0.
    pub fn with_keep(keep: u64) -> Result<Self, Refusal> {
        let records = Records::new(keep);
        // SAFETY: its argument is a number.
        let pointer = unsafe { sys::lt_new_keeping(records.limit()) };
        Ok(Self {
            pointer: NonNull::new(pointer).ok_or(Refusal::OutOfMemory)?,
            records,
            hooks: Hooks::default(),
            packets: BTreeMap::new(),
            roots: BTreeMap::new(),
            rules: Vec::new(),
            lost: format!("/{:016x}{:016x}", random(), random()).into(),
            statuses: Vec::new(),
            modes: None,
        })
    }

    /// Opens a session. At most 256 are open at a time.
    pub fn open(&mut self) -> Result<Session, Refusal> {
        // SAFETY: the pointer is an engine's, which only `drop` frees.
        let session = checked(unsafe { sys::lt_open(self.pointer.as_ptr()) }).map(Session)?;
        self.packets.insert(session, Packets::default());
        Ok(session)
    }

    /// As `open`, for a client that sees the directory `root` of the tree as `/`.
    pub fn open_at(&mut self, root: impl AsRef<[u8]>) -> Result<Session, Error> {
        let root = arguments::path("root", root.as_ref())?;
        let session = self.open()?;
        self.roots.insert(session, root);
        Ok(session)
    }

    /// Appends bytes that the client sent to the session's input. They may be fragmented in any
    /// way.
    pub fn feed(&mut self, session: Session, bytes: &[u8]) -> Result<(), Refusal> {
        self.give(session, &[])?;
        self.packets.get_mut(&session).ok_or(Refusal::HasEnded)?.add(bytes);
        Ok(())
    }

    /// Does one thing: writes a reply, makes one step of the session's call, or reads a packet. A
    /// call that begins has the timestamp `moment`, in whole seconds.
    pub fn turn(&mut self, session: Session, moment: SystemTime) -> Result<Turn, Error> {
        let moment = seconds("moment", moment)?;
        self.offer(session)?;
        // SAFETY: the pointer is an engine's, which only `drop` frees.
        let answer = unsafe { sys::lt_turn(self.pointer.as_ptr(), session.0, moment) };
        let turn = checked(answer).map(Turn::of_number)?;
        if !matches!(turn, Turn::Idle | Turn::Blocked) {
            self.has_moved(session, turn);
        }
        Ok(turn)
    }

    /// Repeats turns until the session is idle, blocked or ended, or until it has written `most`
    /// replies.
    pub fn settle(
        &mut self,
        session: Session,
        moment: SystemTime,
        most: u64,
    ) -> Result<Turn, Error> {
        self.settle_moving(session, moment, most).0
    }

    /// As `settle`; also returns whether any turn made progress, even before an error.
    pub(crate) fn settle_moving(
        &mut self,
        session: Session,
        moment: SystemTime,
        most: u64,
    ) -> (Result<Turn, Error>, bool) {
        let mut has_moved = false;
        for _ in 0..most {
            let (turn, moved) = self.settle_once(session, moment);
            has_moved |= moved;
            if turn != Ok(Turn::Spent) {
                return (turn, has_moved);
            }
        }
        (Ok(Turn::Spent), has_moved)
    }

    /// The library gets one packet at a time, when it reads it: until then rules apply.
    fn settle_once(&mut self, session: Session, moment: SystemTime) -> (Result<Turn, Error>, bool) {
        let moment = match seconds("moment", moment) {
            Ok(moment) => moment,
            Err(fault) => return (Err(fault), false),
        };
        if let Err(refusal) = self.offer(session) {
            return (Err(refusal.into()), false);
        }
        let mut moved = false;
        // SAFETY: the pointer is an engine's, which only `drop` frees; the other one is of a local
        // variable.
        let answer =
            unsafe { sys::lt_settle(self.pointer.as_ptr(), session.0, moment, 1, &mut moved) };
        let turn = checked(answer).map(Turn::of_number);
        if moved || matches!(turn, Ok(Turn::Ended(_))) {
            self.has_moved(session, turn.unwrap_or(Turn::Moved));
        }
        (turn.map_err(Error::from), moved)
    }

    /// After progress of a session. If the records cannot be read now, the next one reads them.
    fn has_moved(&mut self, session: Session, turn: Turn) {
        if matches!(turn, Turn::Ended(_)) {
            self.forget(session);
        }
        let _ = self.read_news();
    }

    /// Runs rounds until no call is in progress. In a round every session with a call in progress
    /// has one turn, with the timestamp 0, in the order of session numbers. Returns the number of
    /// rounds. Later turns write the replies.
    pub fn run_all(&mut self) -> u64 {
        // SAFETY: the pointer is an engine's, which only `drop` frees.
        let rounds = unsafe { sys::lt_run_all(self.pointer.as_ptr()) };
        let _ = self.read_news();
        // Only a null pointer is rejected, by a negative number.
        rounds.unsigned_abs()
    }

    /// Whether the session waits for bytes from its client: no call is in progress, no complete
    /// packet is buffered, and it has not ended.
    pub fn wants_bytes(&self, session: Session) -> bool {
        let has_none = |packets: &Packets| packets.first().is_none();
        self.library_wants_bytes(session) && self.packets.get(&session).map_or(false, has_none)
    }

    fn library_wants_bytes(&self, session: Session) -> bool {
        // SAFETY: the pointer is an engine's, which only `drop` frees. Only a null pointer is
        // rejected.
        unsafe { sys::lt_wants_bytes(self.pointer.as_ptr(), session.0) == 1 }
    }

    /// Ends the session's input. Further turns finish a call in progress and write its reply.
    pub fn close(&mut self, session: Session) -> Result<(), Refusal> {
        // SAFETY: the pointer is an engine's, which only `drop` frees.
        checked(unsafe { sys::lt_close(self.pointer.as_ptr(), session.0) })?;
        self.forget(session);
        let _ = self.read_news();
        Ok(())
    }

    /// After the end of a session's input.
    fn forget(&mut self, session: Session) {
        self.packets.remove(&session);
        self.roots.remove(&session);
        self.rules.retain(|rule| !rule.ends_with(session));
    }

    /// The pending output. If a rule rejected requests, these are the bytes up to the last injected
    /// reply; later output follows once they were sent.
    pub fn output(&self, session: Session) -> Result<Vec<u8>, Refusal> {
        let mut room = vec![0; self.look(session, &mut [])?];
        self.look(session, &mut room)?;
        Ok(room)
    }

    /// Copies the first bytes of the pending output, as many as fit. Returns how many are
    /// pending.
    pub fn look(&self, session: Session, room: &mut [u8]) -> Result<usize, Refusal> {
        // SAFETY: as above, and a slice has as many bytes as its length says.
        let answer = unsafe {
            sys::lt_output(self.pointer.as_ptr(), session.0, room.as_mut_ptr(), room.len())
        };
        checked(answer).map(|waiting| waiting as usize)
    }

    /// Discards the first `count` bytes of the pending output, which were sent.
    pub fn sent(&mut self, session: Session, count: usize) -> Result<(), Refusal> {
        // SAFETY: the pointer is an engine's, which only `drop` frees.
        let answer = unsafe { sys::lt_sent(self.pointer.as_ptr(), session.0, count) };
        checked(answer).map(drop)
    }

    /// Returns and discards all pending output.
    pub fn take(&mut self, session: Session) -> Result<Vec<u8>, Refusal> {
        let mut taken = Vec::new();
        loop {
            let waiting = self.output(session)?;
            if waiting.is_empty() {
                return Ok(taken);
            }
            self.sent(session, waiting.len())?;
            taken.extend(waiting);
        }
    }

    pub(crate) fn add_rule(&mut self, rule: ActiveRule) {
        self.rules.retain(|rule| !rule.has_ended());
        self.rules.push(rule);
    }

    /// Feeds the library's session, without rules.
    pub(crate) fn give(&mut self, session: Session, bytes: &[u8]) -> Result<(), Refusal> {
        // SAFETY: the pointer is an engine's, which only `drop` frees, and a slice has as many
        // bytes as its length says.
        let answer =
            unsafe { sys::lt_feed(self.pointer.as_ptr(), session.0, bytes.as_ptr(), bytes.len()) };
        checked(answer).map(drop)
    }

    /// Gives the library the session's next packet, if it waits for one.
    fn offer(&mut self, session: Session) -> Result<(), Refusal> {
        let packets = match self.packets.get(&session) {
            Some(packets) if self.library_wants_bytes(session) => packets,
            _ => return Ok(()),
        };
        let (mut packet, length) = match packets.first() {
            Some(packet) => (packet.to_vec(), packet.len()),
            None => return Ok(()),
        };
        let has_begun = packets.has_begun;
        if let Some(root) = self.roots.get(&session).filter(|_| has_begun) {
            packet = below_root(&packet, root).unwrap_or(packet);
        }
        if has_begun && !(self.rules.is_empty() && self.hooks.is_empty()) {
            packet = self.ruled(session, packet)?;
        }
        self.give(session, &packet)?;
        if let Some(packets) = self.packets.get_mut(&session) {
            packets.remove(length);
        }
        Ok(())
    }

    /// The packet that the library gets: this one, maybe with other ids, or if a rule rejects it, a
    /// REALPATH to which the library replies with the rule's status. Calls the callbacks before a
    /// call.
    fn ruled(&mut self, session: Session, packet: Vec<u8>) -> Result<Vec<u8>, Refusal> {
        let records = &self.records;
        let opened = |handle| records.opened(session.0, handle);
        let request = match read_request(session.0, &packet, opened) {
            Some(request) => request,
            None => return Ok(packet),
        };
        self.call_before(&request);
        if self.rules.iter().any(|rule| rule.owner_of(&request).is_some()) {
            self.look_at_modes()?;
        }
        for rule in &self.rules {
            if let Some(status) = rule.judge(&request, |owner| self.denies(owner, &request))? {
                let path = self.lost_by(status)?;
                return Ok(realpath(&packet, &path));
            }
        }
        // A user owns what it creates.
        let owner = self.rules.iter().find_map(|rule| rule.owner_of(&request));
        let owner = owner.filter(|_| matches!(request.kind, Kind::Open | Kind::Mkdir));
        Ok(owner.and_then(|owner| with_ids(&packet, owner)).unwrap_or(packet))
    }

    /// Takes a snapshot, unless there is one with the names and attributes of now.
    fn look_at_modes(&mut self) -> Result<(), Refusal> {
        self.read_news()?;
        if self.records.is_shaped() || self.modes.is_none() {
            self.modes = Some(Taken::of(self)?);
        }
        Ok(())
    }

    /// Whether permissions deny a request to a user. Root may do anything.
    fn denies(&self, owner: Owner, request: &Request) -> Result<bool, Refusal> {
        let top = self.roots.get(&Session(request.session)).map_or(&b"/"[..], Vec::as_slice);
        match &self.modes {
            Some(tree) if owner.uid != 0 && request.kind.needs_permission() => {
                Permissions { owner, tree, top }.deny(request)
            }
            _ => Ok(false),
        }
    }

    /// The path for which the library replies to REALPATH with this status.
    fn lost_by(&mut self, status: Status) -> Result<Vec<u8>, Refusal> {
        let path = [&self.lost[..], status.code().to_string().as_bytes()].concat();
        if !self.statuses.contains(&status) {
            let rule = sys::Rule {
                session: 0,
                pass: 0,
                refuse: u64::MAX,
                path: sys::Bytes { at: path.as_ptr(), length: path.len() },
                kind: sys::LT_KIND_REALPATH,
                status: status.code(),
            };
            // SAFETY: the pointer is an engine's, which only `drop` frees, and the rule's path
            // stays until the call is done.
            checked(unsafe { sys::lt_refuse(self.pointer.as_ptr(), &rule) })?;
            self.statuses.push(status);
        }
        Ok(path)
    }
}

/// A number that nobody can guess, since the standard library draws the keys of its hash maps.
fn random() -> u64 {
    RandomState::new().build_hasher().finish()
}

impl fmt::Debug for Engine {
    fn fmt(&self, f: &mut fmt::Formatter<'_>) -> fmt::Result {
        f.debug_struct("Engine").finish_non_exhaustive()
    }
}

impl Drop for Engine {
    fn drop(&mut self) {
        // SAFETY: the pointer came from `lt_new_keeping`, and is not used again.
        unsafe { sys::lt_free(self.pointer.as_ptr()) }
    }
}
