//! The records of an engine's calls.

use crate::arguments::unix_time;
use crate::message;
use lucernetick_sys as sys;
use std::fmt;
use std::slice;
use std::time::{SystemTime, UNIX_EPOCH};

/// The kind of a request or a call. The record of an LSTAT call has `Stat`.
#[derive(Clone, Copy, Debug, PartialEq, Eq)]
#[non_exhaustive]
pub enum Kind {
    Open,
    Close,
    Read,
    Write,
    /// Only of requests.
    Lstat,
    Fstat,
    /// Also lsetstat@openssh.com.
    Setstat,
    /// Also fsync@openssh.com.
    Fsetstat,
    Opendir,
    Readdir,
    Remove,
    Mkdir,
    Rmdir,
    /// Only of requests: it reads nothing of the tree, so no call is recorded.
    Realpath,
    Stat,
    Rename,
    PosixRename,
    Hardlink,
    /// A number of the library that this crate does not know.
    Other(u32),
}

/// The kinds with their numbers, and their names in texts.
const KINDS: [(Kind, u32, &str); 18] = [
    (Kind::Open, 3, "open"),
    (Kind::Close, 4, "close"),
    (Kind::Read, 5, "read"),
    (Kind::Write, 6, "write"),
    (Kind::Lstat, 7, "lstat"),
    (Kind::Fstat, 8, "fstat"),
    (Kind::Setstat, 9, "setstat"),
    (Kind::Fsetstat, 10, "fsetstat"),
    (Kind::Opendir, 11, "opendir"),
    (Kind::Readdir, 12, "readdir"),
    (Kind::Remove, 13, "remove"),
    (Kind::Mkdir, 14, "mkdir"),
    (Kind::Rmdir, 15, "rmdir"),
    (Kind::Realpath, 16, "realpath"),
    (Kind::Stat, 17, "stat"),
    (Kind::Rename, 18, "rename"),
    (Kind::PosixRename, 201, "posix-rename"),
    (Kind::Hardlink, 202, "hardlink"),
];

impl Kind {
    pub(crate) fn of_number(number: u32) -> Self {
        let found = KINDS.iter().find(|(_, known, _)| *known == number);
        found.map_or(Kind::Other(number), |(kind, _, _)| *kind)
    }

    /// Whether requests of this kind have a handle instead of a path.
    pub(crate) fn is_by_handle(self) -> bool {
        use Kind::*;
        matches!(self, Close | Read | Write | Fstat | Fsetstat | Readdir)
    }

    pub(crate) fn is_by_two_paths(self) -> bool {
        matches!(self, Kind::Rename | Kind::PosixRename | Kind::Hardlink)
    }

    /// Whether requests of this kind remove or rename what they name.
    pub(crate) fn is_of_entries(self) -> bool {
        self.is_by_two_paths() || matches!(self, Kind::Remove | Kind::Rmdir)
    }

    /// Whether names or attributes may be others after calls of this kind.
    pub(crate) fn shapes(self) -> bool {
        self.is_of_entries() || matches!(self, Kind::Mkdir | Kind::Setstat | Kind::Fsetstat)
    }

    pub(crate) fn has_attributes(self) -> bool {
        matches!(self, Kind::Open | Kind::Mkdir | Kind::Setstat | Kind::Fsetstat)
    }

    /// Whether requests of this kind change the tree. An OPEN does so by some of its flags.
    pub(crate) fn changes(self) -> bool {
        use Kind::*;
        self.is_of_entries() || matches!(self, Mkdir | Write | Setstat | Fsetstat)
    }
}

/// As in a log, such as `posix-rename`.
impl fmt::Display for Kind {
    fn fmt(&self, f: &mut fmt::Formatter<'_>) -> fmt::Result {
        match KINDS.iter().find(|(kind, _, _)| kind == self) {
            Some((_, _, name)) => f.write_str(name),
            None => write!(f, "{:?}", self),
        }
    }
}

/// The bits of OPEN's pflags.
#[derive(Clone, Copy, Debug)]
pub enum OpenFlag {}

impl OpenFlag {
    pub const READ: u32 = 1;
    pub const WRITE: u32 = 2;
    pub const APPEND: u32 = 4;
    pub const CREATE: u32 = 8;
    pub const TRUNCATE: u32 = 16;
    pub const EXCL: u32 = 32;
}

/// The attributes of a request or a reply; `None` if not given.
#[derive(Clone, Copy, Debug, Default, PartialEq, Eq)]
#[non_exhaustive]
pub struct Attributes {
    pub size: Option<u64>,
    pub uid: Option<u32>,
    pub gid: Option<u32>,
    /// Type and permissions.
    pub permissions: Option<u32>,
    pub atime: Option<SystemTime>,
    pub mtime: Option<SystemTime>,
}

impl Attributes {
    fn of(found: &sys::Attributes) -> Self {
        let given = |bit: u32| found.given & bit != 0;
        Attributes {
            size: given(1).then_some(found.size),
            uid: given(2).then_some(found.uid),
            gid: given(2).then_some(found.gid),
            permissions: given(4).then_some(found.permissions),
            atime: given(8).then(|| unix_time(found.atime)),
            mtime: given(8).then(|| unix_time(found.mtime)),
        }
    }
}

/// The reply to a call.
#[derive(Clone, Debug, PartialEq, Eq)]
#[non_exhaustive]
pub enum Answer {
    /// The code of a status: 0 for OK.
    Status(u32),
    /// The status FAILURE, because memory ran out.
    NoMemory,
    /// The number of the call, which is its handle.
    Handle(u64),
    /// The bytes of READ.
    Data(Vec<u8>),
    Names(Vec<Vec<u8>>),
    Attributes(Attributes),
    /// A number of the library that this crate does not know.
    Other(u32),
}

impl Answer {
    /// Whether the call succeeded.
    pub fn is_ok(&self) -> bool {
        match self {
            Answer::Status(code) => *code == 0,
            Answer::NoMemory | Answer::Other(_) => false,
            _ => true,
        }
    }
}

/// The record of a call. Fields that its kind does not have are 0 or empty.
#[derive(Clone, Debug, PartialEq, Eq)]
#[non_exhaustive]
pub struct Call {
    /// 1, 2, 3 and so on, as calls begin.
    pub number: u64,
    pub session: u64,
    /// The timestamp at which it began.
    pub moment: SystemTime,
    pub kind: Kind,
    /// Absolute, in normal form; of a rename or a link the old path.
    pub path: Vec<u8>,
    pub new_path: Vec<u8>,
    /// The number of the call that opened it.
    pub handle: u64,
    pub offset: u64,
    /// The number of bytes requested or written.
    pub length: u64,
    /// The pflags of OPEN, see `OpenFlag`.
    pub flags: u32,
    /// The bytes of WRITE.
    pub data: Vec<u8>,
    pub attributes: Attributes,
    pub answer: Answer,
}

impl Call {
    /// SAFETY: the bytes of the record must still be valid: no other call was made on its engine.
    pub(crate) unsafe fn of(record: &sys::Call) -> Self {
        Call {
            number: record.number,
            session: record.session,
            moment: unix_time(record.moment),
            kind: Kind::of_number(record.kind),
            path: bytes_of(&record.path),
            new_path: bytes_of(&record.new_path),
            handle: record.handle,
            offset: record.offset,
            length: record.length,
            flags: record.flags,
            data: bytes_of(&record.written),
            attributes: Attributes::of(&record.attributes),
            answer: answer_of(record),
        }
    }
}

/// One line: its session, number, timestamp, request and reply.
impl fmt::Display for Call {
    fn fmt(&self, f: &mut fmt::Formatter<'_>) -> fmt::Result {
        let moment = self.moment.duration_since(UNIX_EPOCH).unwrap_or_default().as_secs();
        write!(f, "session {} call {} at {}: ", self.session, self.number, moment)?;
        write!(f, "{}", self.kind)?;
        for path in [&self.path, &self.new_path].into_iter().filter(|path| !path.is_empty()) {
            write!(f, " \"{}\"", path.escape_ascii())?;
        }
        if self.kind.is_by_handle() {
            write!(f, " handle {}", self.handle)?;
        }
        if matches!(self.kind, Kind::Read | Kind::Write) {
            write!(f, " offset {} length {}", self.offset, self.length)?;
        }
        write!(f, " -> {}", self.answer)
    }
}

impl fmt::Display for Answer {
    fn fmt(&self, f: &mut fmt::Formatter<'_>) -> fmt::Result {
        match self {
            Answer::Status(code) => f.write_str(status_text(*code)),
            Answer::NoMemory => f.write_str("Out of memory"),
            Answer::Handle(handle) => write!(f, "handle {}", handle),
            Answer::Data(data) => write!(f, "data of length {}", data.len()),
            Answer::Names(names) => write!(f, "names {}", names.len()),
            Answer::Attributes(_) => f.write_str("attributes"),
            Answer::Other(number) => write!(f, "answer {}", number),
        }
    }
}

/// The message of a status code.
pub(crate) fn status_text(code: u32) -> &'static str {
    message(sys::LT_REFUSAL_STATUS_BASE - i64::from(code))
}

/// SAFETY: as for `Call::of`.
unsafe fn answer_of(record: &sys::Call) -> Answer {
    let bytes = bytes_of(&record.answer_bytes);
    match record.answer {
        100 => Answer::NoMemory,
        101 => Answer::Status(record.status),
        102 => Answer::Handle(record.answer_handle),
        103 => Answer::Data(bytes),
        104 => Answer::Names(names_of(&bytes)),
        105 => Answer::Attributes(Attributes::of(&record.answer_attributes)),
        other => Answer::Other(other),
    }
}

/// The names of a listing, each followed by a byte 0.
fn names_of(bytes: &[u8]) -> Vec<Vec<u8>> {
    let mut names: Vec<_> = bytes.split(|byte| *byte == 0).map(<[u8]>::to_vec).collect();
    names.pop();
    names
}

/// SAFETY: the bytes must be valid.
pub(crate) unsafe fn bytes_of(bytes: &sys::Bytes) -> Vec<u8> {
    slice::from_raw_parts(bytes.at, bytes.length).to_vec()
}
