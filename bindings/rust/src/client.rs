//! A small SFTP client.

use crate::arguments::unix_time;
use crate::calls::status_text;
use crate::wire::{string, Fields};
use crate::{Error, OpenFlag};
use std::io::{self, ErrorKind, Read, Write};
use std::time::SystemTime;

/// How many bytes a READ or a WRITE has at most.
const PIECE: usize = 32768;
const EOF: u32 = 1;

const STATUS: u8 = 101;
const HANDLE: u8 = 102;
const DATA: u8 = 103;
const NAME: u8 = 104;
const ATTRS: u8 = 105;

/// A small SFTP client for tests, over a connection or any other stream. It sends a request, and
/// waits for the reply. A reply with an error status is an `io::Error` that contains an
/// `Error::Status`: `NotFound`, `PermissionDenied`, or another kind.
///
/// ```
/// use lucernetick::{wall_clock, Client, Engine, Server};
///
/// let server = Server::new(Engine::new()?, wall_clock);
/// let mut client = Client::new(server.connect()?)?;
/// client.write("/a", b"contents")?;
/// assert_eq!(client.read("/a")?, b"contents");
/// # Ok::<(), std::io::Error>(())
/// ```
#[derive(Debug)]
pub struct Client<S> {
    stream: S,
    requests: u32,
}

/// The fields of a reply.
struct Reply {
    kind: u8,
    bytes: Vec<u8>,
}

impl<S: Read + Write> Client<S> {
    /// Opens an SFTP session over this stream.
    pub fn new(stream: S) -> io::Result<Self> {
        let mut client = Self { stream, requests: 0 };
        client.stream.write_all(b"\0\0\0\x05\x01\0\0\0\x03")?;
        client.packet()?;
        Ok(client)
    }

    pub fn make_directory(&mut self, path: impl AsRef<[u8]>) -> io::Result<()> {
        self.change(14, "mkdir", path.as_ref(), &[0; 4])
    }

    pub fn remove_directory(&mut self, path: impl AsRef<[u8]>) -> io::Result<()> {
        self.change(15, "rmdir", path.as_ref(), &[])
    }

    pub fn remove(&mut self, path: impl AsRef<[u8]>) -> io::Result<()> {
        self.change(13, "remove", path.as_ref(), &[])
    }

    /// By RENAME, which fails if the new path exists.
    pub fn rename(&mut self, old: impl AsRef<[u8]>, new: impl AsRef<[u8]>) -> io::Result<()> {
        self.change(18, "rename", old.as_ref(), &string(new.as_ref()))
    }

    /// By posix-rename@openssh.com, which replaces a file.
    pub fn posix_rename(&mut self, old: impl AsRef<[u8]>, new: impl AsRef<[u8]>) -> io::Result<()> {
        let paths = [string(old.as_ref()), string(new.as_ref())].concat();
        self.change(200, "posix-rename", b"posix-rename@openssh.com", &paths)
    }

    /// Makes a file with these contents, or replaces its contents.
    pub fn write(&mut self, path: impl AsRef<[u8]>, contents: impl AsRef<[u8]>) -> io::Result<()> {
        let flags = OpenFlag::WRITE | OpenFlag::CREATE | OpenFlag::TRUNCATE;
        let handle = self.open(path.as_ref(), flags)?;
        for (index, piece) in contents.as_ref().chunks(PIECE).enumerate() {
            let offset = ((index * PIECE) as u64).to_be_bytes();
            self.change(6, "write", &handle, &[&offset[..], &string(piece)].concat())?;
        }
        self.change(4, "close", &handle, &[])
    }

    /// The contents of a file.
    pub fn read(&mut self, path: impl AsRef<[u8]>) -> io::Result<Vec<u8>> {
        let handle = self.open(path.as_ref(), OpenFlag::READ)?;
        let mut contents = Vec::new();
        loop {
            let offset = (contents.len() as u64).to_be_bytes();
            let count = (PIECE as u32).to_be_bytes();
            let reply = self.ask(5, &handle, &[&offset[..], &count].concat())?;
            if reply.status() == Some(EOF) {
                self.change(4, "close", &handle, &[])?;
                return Ok(contents);
            }
            contents.extend(first(&reply.expect(DATA, "read", &handle)?)?);
        }
    }

    /// The names in a directory, in the server's order.
    pub fn list(&mut self, path: impl AsRef<[u8]>) -> io::Result<Vec<Vec<u8>>> {
        let path = path.as_ref();
        let opened = self.ask(11, path, &[])?.expect(HANDLE, "opendir", path)?;
        let handle = first(&opened)?.to_vec();
        let mut names = Vec::new();
        loop {
            let reply = self.ask(12, &handle, &[])?;
            if reply.status() == Some(EOF) {
                self.change(4, "close", &handle, &[])?;
                return Ok(names);
            }
            let listed = reply.expect(NAME, "readdir", path)?;
            add_names(&listed, &mut names).ok_or_else(malformed)?;
        }
    }

    /// The time of the last modification.
    pub fn modified(&mut self, path: impl AsRef<[u8]>) -> io::Result<SystemTime> {
        let found = self.ask(17, path.as_ref(), &[])?.expect(ATTRS, "stat", path.as_ref())?;
        // After the flags, the size, the owner, the permissions and the other time.
        let moment = found.get(28..).and_then(|rest| Fields::of(rest).number(4));
        moment.map(|moment| unix_time(moment as u32)).ok_or_else(malformed)
    }

    /// The stream.
    pub fn get_ref(&self) -> &S {
        &self.stream
    }

    /// Ends the session, and returns the stream.
    pub fn into_inner(self) -> S {
        self.stream
    }

    fn open(&mut self, path: &[u8], flags: u32) -> io::Result<Vec<u8>> {
        let fields = [flags.to_be_bytes(), [0; 4]].concat();
        let opened = self.ask(3, path, &fields)?.expect(HANDLE, "open", path)?;
        Ok(first(&opened)?.to_vec())
    }

    /// A request to which the server replies OK. Its first field is a string.
    fn change(&mut self, kind: u8, name: &str, first: &[u8], fields: &[u8]) -> io::Result<()> {
        let reply = self.ask(kind, first, fields)?;
        match reply.status() {
            Some(0) => Ok(()),
            _ => reply.expect(0, name, first).map(drop),
        }
    }

    fn ask(&mut self, kind: u8, first: &[u8], fields: &[u8]) -> io::Result<Reply> {
        self.requests = self.requests.wrapping_add(1);
        let id = self.requests.to_be_bytes();
        let body = [&[kind], &id[..], &string(first), fields].concat();
        self.stream.write_all(&string(&body))?;
        let mut packet = self.packet()?;
        if packet.get(1..5) != Some(&id) {
            return Err(malformed());
        }
        let bytes = packet.split_off(5);
        Ok(Reply { kind: packet[0], bytes })
    }

    /// The next packet, without its length.
    fn packet(&mut self) -> io::Result<Vec<u8>> {
        let mut length = [0; 4];
        self.stream.read_exact(&mut length)?;
        let mut packet = vec![0; u32::from_be_bytes(length) as usize];
        self.stream.read_exact(&mut packet)?;
        Ok(packet)
    }
}

impl Reply {
    fn status(&self) -> Option<u32> {
        let code = Fields::of(&self.bytes).number(4)?;
        (self.kind == STATUS).then_some(code as u32)
    }

    /// The fields of a reply of this kind.
    fn expect(self, kind: u8, request: &str, of: &[u8]) -> io::Result<Vec<u8>> {
        match self.status() {
            Some(code) => {
                let request = format!("{} \"{}\"", request, of.escape_ascii());
                Err(Error::Status { code, message: status_text(code).to_string(), request }.into())
            }
            None if self.kind == kind => Ok(self.bytes),
            None => Err(malformed()),
        }
    }
}

fn malformed() -> io::Error {
    io::Error::new(ErrorKind::InvalidData, "the reply has an unexpected form")
}

/// The string at the beginning.
fn first(bytes: &[u8]) -> io::Result<&[u8]> {
    Fields::of(bytes).string().ok_or_else(malformed)
}

/// Adds the names of a listing, without `.` and `..`. Attributes have 32 bytes.
fn add_names(listed: &[u8], names: &mut Vec<Vec<u8>>) -> Option<()> {
    let mut fields = Fields::of(listed);
    for _ in 0..fields.number(4)? {
        let name = fields.string()?;
        fields.string()?;
        fields.take(32)?;
        if name != b"." && name != b".." {
            names.push(name.to_vec());
        }
    }
    Some(())
}
