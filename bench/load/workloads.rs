//! What the servers are measured with. Each workload has a session of its own with each server.

use crate::session::Session;
use crate::wire::{
    Field, Outcome, Reply, Request, CLOSE, CREATE, EOF, EXCLUSIVE, EXTENDED, FOR_READING,
    FOR_WRITING, MKDIR, NO_ATTRIBUTES, NO_SUCH_FILE, OK, OPEN, OPENDIR, READ, READDIR, REMOVE,
    RENAME, RMDIR, STAT, STATUS, TRUNCATE, WRITE,
};
use std::time::Instant;

/// The file that is written and read.
const FILE: usize = 16 << 20;

/// The file that sessions read.
const SHARED: &[u8] = b"big";

/// The bytes of one WRITE or READ.
const PIECE: usize = 32768;

/// What a workload knows of the run.
#[derive(Clone, Copy)]
pub struct Setting {
    /// Files in the tree.
    pub files: usize,
    /// Names in a large directory.
    pub names: usize,
    /// The server keeps no tree: of attributes and names only the form is checked.
    pub is_constant: bool,
    /// Which of the sessions on one tree it is. Each chooses files of its own.
    pub number: u64,
}

pub trait Workload: Send {
    /// Makes what the rounds need.
    fn prepare(&mut self, session: &mut Session) -> Outcome<()>;
    /// Works at least until then; answers the units done.
    fn round(&mut self, session: &mut Session, until: Instant) -> Outcome<u64>;
}

/// What is counted.
pub struct Unit {
    pub name: &'static str,
    pub size: f64,
}

const CALLS: Unit = Unit { name: "calls", size: 1.0 };
const NAMES: Unit = Unit { name: "names", size: 1.0 };
const FILES: Unit = Unit { name: "files", size: 1.0 };
const MEGABYTES: Unit = Unit { name: "MB", size: 1e6 };

/// A workload's row of the table.
pub struct Row {
    pub title: &'static str,
    pub unit: Unit,
    pub make: fn(Setting) -> Box<dyn Workload>,
    /// It takes turns with the row before, which it is to be compared with.
    pub is_beside: bool,
}

const fn row(title: &'static str, unit: Unit, make: fn(Setting) -> Box<dyn Workload>) -> Row {
    Row { title, unit, make, is_beside: false }
}

const fn beside(row: Row) -> Row {
    Row { is_beside: true, ..row }
}

/// The names of a small directory.
const FEW: usize = 10;

pub const ROWS: [Row; 24] = [
    row("STAT at a depth of 4, one at a time", CALLS, |setting| Stat::new(setting, 1)),
    row("STAT at a depth of 4, 64 sent ahead", CALLS, |setting| Stat::new(setting, 64)),
    row("MKDIR and RMDIR, one at a time", CALLS, |setting| MakeDirectories::new(setting, 1)),
    row("MKDIR and RMDIR, 64 sent ahead", CALLS, |setting| MakeDirectories::new(setting, 64)),
    row("open, close and remove, one at a time", CALLS, |setting| MakeFiles::new(setting, 1)),
    row("open, close and remove, 64 sent ahead", CALLS, |setting| MakeFiles::new(setting, 64)),
    row("WRITE of 32768 bytes, 64 sent ahead", MEGABYTES, WriteFile::new),
    row("READ of 32768 bytes, 64 sent ahead", MEGABYTES, |_| ReadFile::new()),
    row("STAT in a small directory, one at a time", CALLS, |setting| {
        StatNames::new(Setting { names: FEW, ..setting }, 1)
    }),
    row("STAT in a large directory, one at a time", CALLS, |setting| StatNames::new(setting, 1)),
    row("STAT in a small directory, 64 sent ahead", CALLS, |setting| {
        StatNames::new(Setting { names: FEW, ..setting }, 64)
    }),
    row("STAT in a large directory, 64 sent ahead", CALLS, |setting| StatNames::new(setting, 64)),
    row("open and close of new files in one directory, 64 sent ahead", FILES, MakeNames::new),
    row("READDIR of a large directory, made in rising order", NAMES, |setting| {
        List::new(setting, Order::Rising)
    }),
    row("READDIR of a large directory, made in falling order", NAMES, |setting| {
        List::new(setting, Order::Falling)
    }),
    row("READDIR of a large directory, made in random order", NAMES, |setting| {
        List::new(setting, Order::Random)
    }),
    row("plain rename of an empty directory, one at a time", CALLS, |setting| {
        MoveDirectory::new(Setting { names: 0, ..setting }, Rename::Plain, 1)
    }),
    beside(row("plain rename of a large directory, one at a time", CALLS, |setting| {
        MoveDirectory::new(setting, Rename::Plain, 1)
    })),
    row("posix rename of an empty directory, one at a time", CALLS, |setting| {
        MoveDirectory::new(Setting { names: 0, ..setting }, Rename::Posix, 1)
    }),
    beside(row("posix rename of a large directory, one at a time", CALLS, |setting| {
        MoveDirectory::new(setting, Rename::Posix, 1)
    })),
    row("plain rename of an empty directory, 64 sent ahead", CALLS, |setting| {
        MoveDirectory::new(Setting { names: 0, ..setting }, Rename::Plain, 64)
    }),
    beside(row("plain rename of a large directory, 64 sent ahead", CALLS, |setting| {
        MoveDirectory::new(setting, Rename::Plain, 64)
    })),
    row("posix rename of an empty directory, 64 sent ahead", CALLS, |setting| {
        MoveDirectory::new(Setting { names: 0, ..setting }, Rename::Posix, 64)
    }),
    beside(row("posix rename of a large directory, 64 sent ahead", CALLS, |setting| {
        MoveDirectory::new(setting, Rename::Posix, 64)
    })),
];

fn open(request: Request, path: &[u8], flags: u32) {
    request.send(OPEN, &[Field::Bytes(path), Field::U32(flags), NO_ATTRIBUTES]);
}

fn close(request: Request, handle: &[u8]) {
    request.send(CLOSE, &[Field::Bytes(handle)]);
}

fn make_directory(request: Request, path: &[u8]) {
    request.send(MKDIR, &[Field::Bytes(path), NO_ATTRIBUTES]);
}

fn write(request: Request, handle: &[u8], offset: usize, data: &[u8]) {
    request.send(WRITE, &[Field::Bytes(handle), Field::U64(offset as u64), Field::Bytes(data)]);
}

fn read(request: Request, handle: &[u8], offset: usize, count: usize) {
    request
        .send(READ, &[Field::Bytes(handle), Field::U64(offset as u64), Field::U32(count as u32)]);
}

fn open_now(session: &mut Session, path: &[u8], flags: u32) -> Outcome<Vec<u8>> {
    session.ask(&|request| open(request, path, flags), &|reply| reply.handle())
}

fn close_now(session: &mut Session, handle: &[u8]) -> Outcome<()> {
    session.succeed(&|request| close(request, handle))
}

/// Bytes of which each depends on its place alone.
fn contents() -> Vec<u8> {
    let mut state = 0x9e37_79b9_7f4a_7c15_u64;
    let mut bytes = Vec::with_capacity(FILE);
    while bytes.len() < FILE {
        state ^= state << 13;
        state ^= state >> 7;
        state ^= state << 17;
        bytes.extend_from_slice(&state.to_le_bytes());
    }
    bytes
}

/// The path of a file of the tree.
fn path_of(file: usize) -> Vec<u8> {
    format!("t/a{}/b{}/f{:03}", file % 10, file / 10 % 10, file / 100).into_bytes()
}

/// The size of a file of the tree, which tells it from most others.
fn size_of(file: usize) -> usize {
    file % 97
}

/// Makes a tree of so many files, each at a depth of 4.
fn make_tree(session: &mut Session, files: usize) -> Outcome<()> {
    session.succeed(&|request| make_directory(request, b"t"))?;
    for a in 0..10 {
        session.succeed(&|request| make_directory(request, format!("t/a{a}").as_bytes()))?;
        for b in 0..10 {
            let path = format!("t/a{a}/b{b}");
            session.succeed(&|request| make_directory(request, path.as_bytes()))?;
        }
    }
    for file in 0..files {
        let handle = open_now(session, &path_of(file), FOR_WRITING | CREATE | EXCLUSIVE)?;
        session.succeed(&|request| write(request, &handle, 0, &vec![7; size_of(file)]))?;
        close_now(session, &handle)?;
    }
    Ok(())
}

/// Numbers as if by chance, the same in each run.
struct Chance(u64);

impl Chance {
    /// A number below a limit.
    fn below(&mut self, limit: usize) -> usize {
        self.0 = self.0.wrapping_mul(6364136223846793005).wrapping_add(1442695040888963407);
        (self.0 >> 33) as usize % limit
    }
}

/// STAT of files of the tree, chosen as if by chance.
pub struct Stat {
    setting: Setting,
    ahead: usize,
    chance: Chance,
}

impl Stat {
    pub fn new(setting: Setting, ahead: usize) -> Box<dyn Workload> {
        Box::new(Stat { setting, ahead, chance: Chance(1 + setting.number) })
    }

    /// So many STATs, one at a time.
    pub fn few(setting: Setting, session: &mut Session, count: usize) -> Outcome<()> {
        let mut stat = Stat { setting, ahead: 1, chance: Chance(1 + setting.number) };
        for _ in 0..count {
            let file = stat.chance.below(setting.files);
            let path = path_of(file);
            let send = |request: Request| request.send(STAT, &[Field::Bytes(&path)]);
            session.ask(&send, &|reply| stat.check(reply, file))?;
        }
        Ok(())
    }

    fn check(&self, reply: Reply, file: usize) -> Outcome<()> {
        let size = reply.file_size()?;
        if size != size_of(file) as u64 && !self.setting.is_constant {
            return Err(format!("STAT of file {file}: size {size}"));
        }
        Ok(())
    }
}

impl Workload for Stat {
    fn prepare(&mut self, session: &mut Session) -> Outcome<()> {
        make_tree(session, self.setting.files)
    }

    fn round(&mut self, session: &mut Session, until: Instant) -> Outcome<u64> {
        let mut files = vec![0; self.ahead];
        session.pump(self.ahead, &mut |slot, reply, request| {
            if let Some(reply) = reply {
                self.check(reply, files[slot])?;
                if Instant::now() >= until {
                    return Ok(false);
                }
            }
            files[slot] = self.chance.below(self.setting.files);
            request.send(STAT, &[Field::Bytes(&path_of(files[slot]))]);
            Ok(true)
        })
    }
}

/// A number that no other slot has, of all sessions with so many slots on one tree.
fn number_of(setting: Setting, slots: usize, slot: usize) -> usize {
    setting.number as usize * slots + slot
}

/// Beside the tree each slot makes a directory of its own and removes it.
pub struct MakeDirectories {
    setting: Setting,
    ahead: usize,
}

impl MakeDirectories {
    pub fn new(setting: Setting, ahead: usize) -> Box<dyn Workload> {
        Box::new(MakeDirectories { setting, ahead })
    }
}

impl Workload for MakeDirectories {
    fn prepare(&mut self, session: &mut Session) -> Outcome<()> {
        make_tree(session, self.setting.files)?;
        session.succeed(&|request| make_directory(request, b"w"))
    }

    fn round(&mut self, session: &mut Session, until: Instant) -> Outcome<u64> {
        let mut is_there = vec![false; self.ahead];
        session.pump(self.ahead, &mut |slot, reply, request| {
            if let Some(reply) = reply {
                reply.status(OK)?;
                if !is_there[slot] && Instant::now() >= until {
                    return Ok(false);
                }
            }
            let path = format!("w/d{}", number_of(self.setting, self.ahead, slot));
            if is_there[slot] {
                request.send(RMDIR, &[Field::Bytes(path.as_bytes())]);
            } else {
                make_directory(request, path.as_bytes());
            }
            is_there[slot] = !is_there[slot];
            Ok(true)
        })
    }
}

/// Beside the tree each slot opens a new file of its own, closes it and removes it.
pub struct MakeFiles {
    setting: Setting,
    ahead: usize,
}

/// What a slot was asked last.
#[derive(Clone, Copy)]
enum Asked {
    Open,
    Close,
    Remove,
}

impl MakeFiles {
    pub fn new(setting: Setting, ahead: usize) -> Box<dyn Workload> {
        Box::new(MakeFiles { setting, ahead })
    }
}

impl Workload for MakeFiles {
    fn prepare(&mut self, session: &mut Session) -> Outcome<()> {
        make_tree(session, self.setting.files)?;
        session.succeed(&|request| make_directory(request, b"w"))
    }

    fn round(&mut self, session: &mut Session, until: Instant) -> Outcome<u64> {
        let mut asked = vec![Asked::Remove; self.ahead];
        session.pump(self.ahead, &mut |slot, reply, request| {
            let path = format!("w/f{}", number_of(self.setting, self.ahead, slot));
            asked[slot] = match (asked[slot], reply) {
                (Asked::Open, Some(reply)) => {
                    close(request, &reply.handle()?);
                    Asked::Close
                }
                (Asked::Close, Some(reply)) => {
                    reply.status(OK)?;
                    request.send(REMOVE, &[Field::Bytes(path.as_bytes())]);
                    Asked::Remove
                }
                (_, reply) => {
                    if let Some(reply) = reply {
                        reply.status(OK)?;
                        if Instant::now() >= until {
                            return Ok(false);
                        }
                    }
                    open(request, path.as_bytes(), FOR_WRITING | CREATE | EXCLUSIVE);
                    Asked::Open
                }
            };
            Ok(true)
        })
    }
}

/// Opens a file with nothing in it, and writes the whole of it.
fn write_whole(session: &mut Session, path: &[u8], contents: &[u8]) -> Outcome<()> {
    let handle = open_now(session, path, FOR_WRITING | CREATE | TRUNCATE)?;
    let mut offset = 0;
    session.pump(64, &mut |_, reply, request| {
        if let Some(reply) = reply {
            reply.status(OK)?;
        }
        if offset == FILE {
            return Ok(false);
        }
        write(request, &handle, offset, &contents[offset..offset + PIECE]);
        offset += PIECE;
        Ok(true)
    })?;
    close_now(session, &handle)
}

/// Reads a whole file and compares it. A reply may have fewer bytes than were asked for; the rest
/// is asked for again.
fn read_whole(session: &mut Session, path: &[u8], contents: &[u8]) -> Outcome<()> {
    let handle = open_now(session, path, FOR_READING)?;
    let mut asked = vec![0..0; 64];
    let mut next = 0;
    session.pump(64, &mut |slot, reply, request| {
        if let Some(reply) = reply {
            let data = reply.data()?;
            let due = &contents[asked[slot].clone()];
            if data.is_empty() || !due.starts_with(data) {
                return Err(format!("wrong DATA at {}", asked[slot].start));
            }
            asked[slot].start += data.len();
        }
        if asked[slot].is_empty() {
            if next == FILE {
                return Ok(false);
            }
            asked[slot] = next..next + PIECE;
            next += PIECE;
        }
        read(request, &handle, asked[slot].start, asked[slot].len());
        Ok(true)
    })?;
    session.ask(&|request| read(request, &handle, FILE, 1), &|reply| reply.status(EOF))?;
    close_now(session, &handle)
}

/// Repeats until the time is over, at least once; answers the bytes moved.
fn repeat(until: Instant, move_file: &mut dyn FnMut() -> Outcome<()>) -> Outcome<u64> {
    let mut bytes = 0;
    while bytes == 0 || Instant::now() < until {
        move_file()?;
        bytes += FILE as u64;
    }
    Ok(bytes)
}

/// Writes a file of 16 MiB of the session's own over and over. It is read back once.
pub struct WriteFile {
    path: Vec<u8>,
    contents: Vec<u8>,
}

impl WriteFile {
    pub fn new(setting: Setting) -> Box<dyn Workload> {
        let path = format!("big{}", setting.number).into_bytes();
        Box::new(WriteFile { path, contents: contents() })
    }
}

impl Workload for WriteFile {
    fn prepare(&mut self, session: &mut Session) -> Outcome<()> {
        write_whole(session, &self.path, &self.contents)?;
        read_whole(session, &self.path, &self.contents)
    }

    fn round(&mut self, session: &mut Session, until: Instant) -> Outcome<u64> {
        repeat(until, &mut || write_whole(session, &self.path, &self.contents))
    }
}

/// Reads a file of 16 MiB over and over, the same in all sessions.
pub struct ReadFile {
    contents: Vec<u8>,
}

impl ReadFile {
    pub fn new() -> Box<dyn Workload> {
        Box::new(ReadFile { contents: contents() })
    }
}

impl Workload for ReadFile {
    fn prepare(&mut self, session: &mut Session) -> Outcome<()> {
        write_whole(session, SHARED, &self.contents)
    }

    fn round(&mut self, session: &mut Session, until: Instant) -> Outcome<u64> {
        repeat(until, &mut || read_whole(session, SHARED, &self.contents))
    }
}

/// The order in which the names of a directory are made.
#[derive(Clone, Copy)]
enum Order {
    Rising,
    Falling,
    Random,
}

/// The numbers of so many names in the order in which they are made.
fn numbers(order: Order, names: usize) -> Vec<usize> {
    let mut numbers: Vec<usize> = (0..names).collect();
    match order {
        Order::Rising => {}
        Order::Falling => numbers.reverse(),
        Order::Random => {
            let mut chance = Chance(1);
            for i in (1..names).rev() {
                numbers.swap(i, chance.below(i + 1));
            }
        }
    }
    numbers
}

/// The path of a file of a directory. Names stand in the order of their numbers.
fn name_in(directory: &str, number: usize) -> Vec<u8> {
    format!("{directory}/f{number:06}").into_bytes()
}

/// Makes a directory with an empty file for each number.
fn make_names(session: &mut Session, directory: &str, numbers: &[usize]) -> Outcome<()> {
    session.succeed(&|request| make_directory(request, directory.as_bytes()))?;
    let mut left = numbers.iter();
    let mut is_open = [false; 64];
    session.pump(64, &mut |slot, reply, request| {
        if let Some(reply) = reply {
            if !is_open[slot] {
                close(request, &reply.handle()?);
                is_open[slot] = true;
                return Ok(true);
            }
            reply.status(OK)?;
        }
        is_open[slot] = false;
        match left.next() {
            None => Ok(false),
            Some(number) => {
                open(request, &name_in(directory, *number), FOR_WRITING | CREATE | EXCLUSIVE);
                Ok(true)
            }
        }
    })?;
    Ok(())
}

/// Makes a directory of many files, over and over a new one, their names in random order.
struct MakeNames {
    setting: Setting,
    made: usize,
}

impl MakeNames {
    fn new(setting: Setting) -> Box<dyn Workload> {
        Box::new(MakeNames { setting, made: 0 })
    }
}

impl Workload for MakeNames {
    fn prepare(&mut self, _session: &mut Session) -> Outcome<()> {
        Ok(())
    }

    fn round(&mut self, session: &mut Session, _until: Instant) -> Outcome<u64> {
        let numbers = numbers(Order::Random, self.setting.names);
        make_names(session, &format!("n{}", self.made), &numbers)?;
        self.made += 1;
        Ok(self.setting.names as u64)
    }
}

/// STAT of the files of one directory, chosen as if by chance.
struct StatNames {
    setting: Setting,
    ahead: usize,
    chance: Chance,
}

impl StatNames {
    fn new(setting: Setting, ahead: usize) -> Box<dyn Workload> {
        Box::new(StatNames { setting, ahead, chance: Chance(1) })
    }
}

impl Workload for StatNames {
    fn prepare(&mut self, session: &mut Session) -> Outcome<()> {
        make_names(session, "n", &numbers(Order::Random, self.setting.names))
    }

    fn round(&mut self, session: &mut Session, until: Instant) -> Outcome<u64> {
        session.pump(self.ahead, &mut |_, reply, request| {
            if let Some(reply) = reply {
                let size = reply.file_size()?;
                if size != 0 {
                    return Err(format!("STAT of an empty file: size {size}"));
                }
                if Instant::now() >= until {
                    return Ok(false);
                }
            }
            let number = self.chance.below(self.setting.names);
            request.send(STAT, &[Field::Bytes(&name_in("n", number))]);
            Ok(true)
        })
    }
}

/// Lists a directory of many files, one READDIR at a time.
struct List {
    setting: Setting,
    order: Order,
}

impl List {
    fn new(setting: Setting, order: Order) -> Box<dyn Workload> {
        Box::new(List { setting, order })
    }

    /// Marks the number in a name `fNNNNNN`; refuses other names, and a name that came before.
    fn mark(seen: &mut [bool], name: &[u8]) -> Outcome<()> {
        let number = name
            .strip_prefix(b"f")
            .and_then(|digits| std::str::from_utf8(digits).ok()?.parse::<usize>().ok());
        match number.and_then(|number| seen.get_mut(number)) {
            Some(mark) if !*mark => *mark = true,
            _ => return Err(format!("a strange name: {:?}", String::from_utf8_lossy(name))),
        }
        Ok(())
    }

    fn list(&self, session: &mut Session) -> Outcome<u64> {
        let handle = session
            .ask(&|request| request.send(OPENDIR, &[Field::Bytes(b"l")]), &|reply| {
                reply.handle()
            })?;
        let mut seen = vec![false; self.setting.names];
        let mut names = 0;
        session.pump(1, &mut |_, reply, request| {
            if let Some(reply) = reply {
                if reply.kind == STATUS {
                    reply.status(EOF)?;
                    return Ok(false);
                }
                names += reply.names(&mut |name| {
                    if self.setting.is_constant {
                        Ok(())
                    } else {
                        List::mark(&mut seen, name)
                    }
                })?;
            }
            request.send(READDIR, &[Field::Bytes(&handle)]);
            Ok(true)
        })?;
        close_now(session, &handle)?;
        if !self.setting.is_constant && seen.contains(&false) {
            return Err(format!("only {names} names are listed"));
        }
        Ok(names)
    }
}

impl Workload for List {
    fn prepare(&mut self, session: &mut Session) -> Outcome<()> {
        make_names(session, "l", &numbers(self.order, self.setting.names))
    }

    fn round(&mut self, session: &mut Session, until: Instant) -> Outcome<u64> {
        let mut names = 0;
        while names == 0 || Instant::now() < until {
            names += self.list(session)?;
        }
        Ok(names)
    }
}

/// Which of the two renames.
#[derive(Clone, Copy)]
pub enum Rename {
    Plain,
    Posix,
}

impl Rename {
    fn send(self, request: Request, old: &str, new: &str) {
        let [old, new] = [old, new].map(|path| Field::Bytes(path.as_bytes()));
        match self {
            Rename::Plain => request.send(RENAME, &[old, new]),
            Rename::Posix => {
                request.send(EXTENDED, &[Field::Bytes(b"posix-rename@openssh.com"), old, new])
            }
        }
    }
}

/// The places between which a directory moves.
const ABOVE: &str = "d";
const BELOW: &str = "u/v/d";

/// Moves a directory down and up again, over and over. Requests sent ahead rely on the order in
/// which they were sent: each but the first finds the directory only where the one before put it.
pub struct MoveDirectory {
    setting: Setting,
    rename: Rename,
    ahead: usize,
    is_below: bool,
}

impl MoveDirectory {
    pub fn new(setting: Setting, rename: Rename, ahead: usize) -> Box<dyn Workload> {
        Box::new(MoveDirectory { setting, rename, ahead, is_below: false })
    }

    /// Asks for ten of the directory's files at the place where it is now.
    fn look(&self, session: &mut Session) -> Outcome<()> {
        let directory = if self.is_below { BELOW } else { ABOVE };
        for number in (0..self.setting.names).step_by(self.setting.names / 10 + 1) {
            let path = name_in(directory, number);
            let size = session
                .ask(&|request| request.send(STAT, &[Field::Bytes(&path)]), &|reply| {
                    reply.file_size()
                })?;
            if size != 0 {
                return Err(format!("STAT of an empty file: size {size}"));
            }
        }
        Ok(())
    }
}

impl Workload for MoveDirectory {
    fn prepare(&mut self, session: &mut Session) -> Outcome<()> {
        for path in ["u", "u/v"] {
            session.succeed(&|request| make_directory(request, path.as_bytes()))?;
        }
        make_names(session, ABOVE, &numbers(Order::Random, self.setting.names))
    }

    fn round(&mut self, session: &mut Session, until: Instant) -> Outcome<u64> {
        let calls = session.pump(self.ahead, &mut |_, reply, request| {
            if let Some(reply) = reply {
                reply.status(OK)?;
                if Instant::now() >= until {
                    return Ok(false);
                }
            }
            let (old, new) = if self.is_below { (BELOW, ABOVE) } else { (ABOVE, BELOW) };
            self.rename.send(request, old, new);
            self.is_below = !self.is_below;
            Ok(true)
        })?;
        self.look(session)?;
        Ok(calls)
    }
}

/// STAT of files of the directory that another session moves: each is asked for at one of its two
/// places, as if by chance, and is there or not.
pub struct StatMoving {
    setting: Setting,
    chance: Chance,
}

impl StatMoving {
    pub fn new(setting: Setting) -> Box<dyn Workload> {
        Box::new(StatMoving { setting, chance: Chance(1 + setting.number) })
    }
}

impl Workload for StatMoving {
    fn prepare(&mut self, _session: &mut Session) -> Outcome<()> {
        Ok(())
    }

    fn round(&mut self, session: &mut Session, until: Instant) -> Outcome<u64> {
        session.pump(64, &mut |_, reply, request| {
            if let Some(reply) = reply {
                if reply.kind == STATUS {
                    reply.status(NO_SUCH_FILE)?;
                } else if reply.file_size()? != 0 {
                    return Err("STAT of an empty file: a size".into());
                }
                if Instant::now() >= until {
                    return Ok(false);
                }
            }
            let directory = if self.chance.below(2) == 0 { ABOVE } else { BELOW };
            let path = name_in(directory, self.chance.below(self.setting.names));
            request.send(STAT, &[Field::Bytes(&path)]);
            Ok(true)
        })
    }
}
