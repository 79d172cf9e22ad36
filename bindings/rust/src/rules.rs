//! Injected errors.

use crate::arguments::in_range;
use crate::patterns::Pattern;
use crate::permissions::{Owner, KEPT};
use crate::{Engine, Error, Kind, OpenFlag, Refusal, Request, Session};
use std::fmt;
use std::sync::{Arc, Mutex, MutexGuard, PoisonError};

/// The statuses of rejected requests.
#[derive(Clone, Copy, Debug, Default, PartialEq, Eq)]
#[non_exhaustive]
pub enum Status {
    Ok,
    Eof,
    NoSuchFile,
    PermissionDenied,
    #[default]
    Failure,
    BadMessage,
    OpUnsupported,
}

impl Status {
    /// The protocol's number.
    pub fn code(self) -> u32 {
        match self {
            Status::Ok => 0,
            Status::Eof => 1,
            Status::NoSuchFile => 2,
            Status::PermissionDenied => 3,
            Status::Failure => 4,
            Status::BadMessage => 5,
            Status::OpUnsupported => 8,
        }
    }
}

type Predicate = Arc<dyn Fn(&Request) -> bool + Send + Sync>;

/// Injects errors: selects requests, how many of them, and the status to return. The default
/// rejects the next request of any kind with `Status::Failure`.
///
/// ```
/// use lucernetick::{Kind, Rule};
///
/// let twice = Rule::default().kind(Kind::Write).path("/out/*.part").times(2);
/// # let _ = twice;
/// ```
#[derive(Clone)]
#[must_use]
pub struct Rule {
    session: Option<Session>,
    kinds: Vec<Kind>,
    path: Option<Vec<u8>>,
    flags: Option<u32>,
    predicates: Vec<Predicate>,
    after: u64,
    after_bytes: Option<u64>,
    times: Option<u64>,
    status: Status,
    owner: Option<Owner>,
}

impl Default for Rule {
    fn default() -> Self {
        Rule {
            session: None,
            kinds: Vec::new(),
            path: None,
            flags: None,
            predicates: Vec::new(),
            after: 0,
            after_bytes: None,
            times: Some(1),
            status: Status::default(),
            owner: None,
        }
    }
}

impl Rule {
    /// Simulates a full disk: WRITEs of `after` bytes in total succeed. A WRITE that does not fit
    /// fails, until the rule ends.
    pub fn disk_full(after: u64) -> Self {
        Rule::default().kind(Kind::Write).after_bytes(after).always()
    }

    /// Makes the tree read-only for clients, or with `path` a part of it. Requests that would
    /// change it fail with `Status::PermissionDenied`, until the rule ends.
    pub fn read_only() -> Self {
        Rule::default().when(would_change).always().status(Status::PermissionDenied)
    }

    /// Enforces permission bits as POSIX does, for a client that is this user, of this group: all
    /// clients, or with `session` that of a session. What they deny fails with
    /// `Status::PermissionDenied`, until the rule ends. The user 0 may do anything.
    ///
    /// Each directory of a path needs the permission to search it (x); OPEN and OPENDIR need those
    /// to read or write. To create, remove, rename or link an entry, its directory needs the
    /// permission to write, and with the sticky bit the user must own one of them. Only the owner
    /// sets permissions and times, and only the user 0 another owner. An id of 4294967295 stays as
    /// it is. What the client creates belongs to this user and group.
    ///
    /// Permissions are those at the time when the request is read, and a handle keeps those that it
    /// was opened with. `Engine::set_attributes` sets the owner and the mode of a path.
    pub fn enforce_permissions(uid: u32, gid: u32) -> Self {
        let owner = Some(Owner { uid, gid });
        Rule { owner, ..Rule::default().always().status(Status::PermissionDenied) }
    }

    /// Matches only requests of this session.
    pub fn session(self, session: Session) -> Self {
        Rule { session: Some(session), ..self }
    }

    /// Matches only requests of this kind, or of another one that was given before.
    pub fn kind(mut self, kind: Kind) -> Self {
        self.kinds.push(kind);
        self
    }

    /// Matches only requests for this path, in any spelling. A request by handle, as WRITE, matches
    /// by the path that the handle was opened with. A name may have the wildcards `*`, `?` and
    /// `[abc]`, and the name `**` is any number of names. `escape` escapes them.
    pub fn path(self, path: impl AsRef<[u8]>) -> Self {
        Rule { path: Some(path.as_ref().to_vec()), ..self }
    }

    /// Matches only OPEN requests with all of these bits, see `OpenFlag`.
    pub fn flags(self, flags: u32) -> Self {
        Rule { flags: Some(flags), ..self }
    }

    /// Matches only requests for which this returns true.
    pub fn when(mut self, matches: impl Fn(&Request) -> bool + Send + Sync + 'static) -> Self {
        self.predicates.push(Arc::new(matches));
        self
    }

    /// Skips this number of matching requests first.
    pub fn after(self, after: u64) -> Self {
        Rule { after, ..self }
    }

    /// Skips WRITEs of this number of bytes in total first.
    pub fn after_bytes(self, bytes: u64) -> Self {
        Rule { after_bytes: Some(bytes), ..self }
    }

    /// Rejects this number of requests. Later requests are skipped.
    pub fn times(self, times: u64) -> Self {
        Rule { times: Some(times), ..self }
    }

    /// Rejects all requests, until the rule ends.
    pub fn always(self) -> Self {
        Rule { times: None, ..self }
    }

    /// Returns this status.
    pub fn status(self, status: Status) -> Self {
        Rule { status, ..self }
    }

    /// The kinds that it matches, none for all. Flags are those of OPEN, and bytes those of WRITE.
    fn checked_kinds(&self) -> Result<Vec<Kind>, Error> {
        let mut kinds = self.kinds.clone();
        let needs = [
            ("flags", self.flags.is_some(), Kind::Open),
            ("after_bytes", self.after_bytes.is_some(), Kind::Write),
        ];
        for (name, is_given, only) in needs {
            if is_given && kinds.iter().any(|kind| *kind != only) {
                let why = format!("{} needs Kind::{:?}, or no kind", name, only);
                return Err(Error::Argument(why));
            }
            if is_given {
                kinds = vec![only];
            }
        }
        match kinds.iter().find(|kind| matches!(kind, Kind::Other(_))) {
            Some(kind) => Err(Error::Argument(format!("kind must be a request, not {:?}", kind))),
            None => Ok(kinds),
        }
    }
}

impl fmt::Debug for Rule {
    fn fmt(&self, f: &mut fmt::Formatter<'_>) -> fmt::Result {
        f.debug_struct("Rule")
            .field("session", &self.session)
            .field("kinds", &self.kinds)
            .field("path", &self.path.as_deref().map(String::from_utf8_lossy))
            .field("flags", &self.flags)
            .field("after", &self.after)
            .field("after_bytes", &self.after_bytes)
            .field("times", &self.times)
            .field("status", &self.status)
            .field("owner", &self.owner)
            .finish_non_exhaustive()
    }
}

/// Whether a request would change the tree.
fn would_change(request: &Request) -> bool {
    let changing = OpenFlag::WRITE | OpenFlag::APPEND | OpenFlag::CREATE | OpenFlag::TRUNCATE;
    request.kind.changes() || request.flags & changing != 0
}

/// A rule that `refuse` has given. It holds until its `end`. Its clones are the same rule.
#[derive(Clone, Debug)]
pub struct GivenRule {
    counts: Arc<Mutex<Counts>>,
}

#[derive(Debug)]
struct Counts {
    after: u64,
    bytes_left: Option<u64>,
    times: Option<u64>,
    refused: u64,
    has_ended: bool,
}

impl GivenRule {
    /// How many requests it has rejected so far.
    pub fn refused(&self) -> u64 {
        self.lock().refused
    }

    /// Ends the rule: it rejects no further request.
    pub fn end(&self) {
        self.lock().has_ended = true;
    }

    fn lock(&self) -> MutexGuard<'_, Counts> {
        self.counts.lock().unwrap_or_else(PoisonError::into_inner)
    }
}

/// A rule of an engine.
pub(crate) struct ActiveRule {
    rule: Rule,
    kinds: Vec<Kind>,
    path: Option<Pattern>,
    given: GivenRule,
}

impl ActiveRule {
    fn new(rule: Rule) -> Result<Self, Error> {
        let kinds = rule.checked_kinds()?;
        if let Some(flags) = rule.flags {
            in_range("flags", u64::from(flags), 1, u64::from(u32::MAX))?;
        }
        if let Some(owner) = rule.owner {
            in_range("uid", owner.uid.into(), 0, u64::from(KEPT) - 1)?;
            in_range("gid", owner.gid.into(), 0, u64::from(KEPT) - 1)?;
        }
        let path = rule.path.as_ref().map(|path| Pattern::new(path)).transpose()?;
        let counts = Counts {
            after: rule.after,
            bytes_left: rule.after_bytes,
            times: rule.times,
            refused: 0,
            has_ended: false,
        };
        let given = GivenRule { counts: Arc::new(Mutex::new(counts)) };
        Ok(Self { rule, kinds, path, given })
    }

    pub(crate) fn has_ended(&self) -> bool {
        self.given.lock().has_ended
    }

    /// Whether it is of a session that has ended.
    pub(crate) fn ends_with(&self, session: Session) -> bool {
        self.rule.owner.is_some() && self.rule.session == Some(session)
    }

    /// The user whose permissions it enforces for a request.
    pub(crate) fn owner_of(&self, request: &Request) -> Option<Owner> {
        self.rule.owner.filter(|_| !self.has_ended() && self.matches(request))
    }

    /// The status of a request that it rejects. `denies` returns whether permissions deny it.
    pub(crate) fn judge(
        &self,
        request: &Request,
        denies: impl Fn(Owner) -> Result<bool, Refusal>,
    ) -> Result<Option<Status>, Refusal> {
        if self.has_ended() || !self.matches(request) {
            return Ok(None);
        }
        match self.rule.owner {
            Some(owner) if !denies(owner)? => Ok(None),
            _ => Ok(self.count(request)),
        }
    }

    /// The status of a request that it matches, unless it lets that pass.
    fn count(&self, request: &Request) -> Option<Status> {
        let mut counts = self.given.lock();
        if counts.times == Some(0) {
            return None;
        }
        if counts.after > 0 {
            counts.after -= 1;
            return None;
        }
        let written = request.data.len() as u64;
        if let Some(left) = counts.bytes_left.and_then(|left| left.checked_sub(written)) {
            counts.bytes_left = Some(left);
            return None;
        }
        counts.times = counts.times.map(|times| times - 1);
        counts.refused += 1;
        Some(self.rule.status)
    }

    fn matches(&self, request: &Request) -> bool {
        let names = |pattern: &Pattern| {
            [&request.path, &request.new_path]
                .into_iter()
                .any(|path| !path.is_empty() && pattern.fits(path))
        };
        let rule = &self.rule;
        rule.session.map_or(true, |session| session.number() == request.session)
            && (self.kinds.is_empty() || self.kinds.contains(&request.kind))
            && rule.flags.map_or(true, |flags| request.flags & flags == flags)
            && self.path.as_ref().map_or(true, names)
            && rule.predicates.iter().all(|matches| matches(request))
    }
}

impl Engine {
    /// Rejects requests from now on. A rejected request gets a status in its place, never reaches
    /// the file system, and is not recorded. If several rules match, the oldest one that rejects
    /// the request counts it. Rules never apply to INIT, nor to requests that a turn has already
    /// read.
    pub fn refuse(&mut self, rule: Rule) -> Result<GivenRule, Error> {
        let active = ActiveRule::new(rule)?;
        let given = active.given.clone();
        self.add_rule(active);
        Ok(given)
    }
}
