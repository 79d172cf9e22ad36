//! Requests of clients: a packet is read for rules and callbacks, or written anew.

use crate::arguments::unix_time;
use crate::permissions::Owner;
use crate::wire::{string, Fields};
use crate::{arguments, Attributes, Kind};

const OPEN: u8 = 3;
const EXTENDED: u8 = 200;
const REALPATH: u8 = 16;
/// The flags of attributes.
pub(crate) const SIZE: u32 = 1;
pub(crate) const OWNER: u32 = 2;
pub(crate) const MODE: u32 = 4;
pub(crate) const TIMES: u32 = 8;
const PAIRS: u32 = 1 << 31;
/// The length, the type and the id of a packet.
const HEAD: usize = 9;

/// A request that the server is about to read. Fields that its kind does not have are 0 or empty.
#[derive(Clone, Debug, PartialEq, Eq)]
#[non_exhaustive]
pub struct Request {
    pub session: u64,
    pub kind: Kind,
    /// Absolute, in normal form; of a rename or a link the old path. Of a request by handle: the
    /// path that the handle was opened with.
    pub path: Vec<u8>,
    pub new_path: Vec<u8>,
    /// The number of the call that opened it.
    pub handle: u64,
    pub offset: u64,
    /// The number of bytes requested or written.
    pub length: u64,
    /// The pflags of OPEN, see `OpenFlag`.
    pub flags: u32,
    /// The bytes of WRITE.
    pub data: Vec<u8>,
    pub attributes: Attributes,
}

/// A path in normal form. The server rejects some texts itself.
fn path(fields: &mut Fields<'_>) -> Option<Vec<u8>> {
    match fields.string()? {
        b"" => Some(b"/".to_vec()),
        path => arguments::path("path", path).ok(),
    }
}

fn handle(fields: &mut Fields<'_>) -> Option<u64> {
    let mut handle = Fields::of(fields.string()?);
    handle.number(8).filter(|_| handle.rest().is_empty())
}

/// Attributes. Extended ones are skipped.
fn attributes(fields: &mut Fields<'_>) -> Option<Attributes> {
    let flags = fields.number(4)? as u32;
    let mut found = Attributes::default();
    let mut number = |flag, size| match flags & flag {
        0 => Some(None),
        _ => fields.number(size).map(Some),
    };
    found.size = number(SIZE, 8)?;
    found.uid = number(OWNER, 4)?.map(|uid| uid as u32);
    found.gid = number(OWNER, 4)?.map(|gid| gid as u32);
    found.permissions = number(MODE, 4)?.map(|mode| mode as u32);
    found.atime = number(TIMES, 4)?.map(|moment| unix_time(moment as u32));
    found.mtime = number(TIMES, 4)?.map(|moment| unix_time(moment as u32));
    for _ in 0..number(PAIRS, 4)?.unwrap_or(0) {
        fields.string()?;
        fields.string()?;
    }
    Some(found)
}

/// The kind of a packet. An extended request has its name before its fields.
fn kind_of(code: u8, fields: &mut Fields<'_>) -> Option<Kind> {
    if code != EXTENDED {
        return Some(Kind::of_number(code.into())).filter(|kind| !matches!(kind, Kind::Other(_)));
    }
    match fields.string()? {
        b"posix-rename@openssh.com" => Some(Kind::PosixRename),
        b"hardlink@openssh.com" => Some(Kind::Hardlink),
        b"fsync@openssh.com" => Some(Kind::Fsetstat),
        b"lsetstat@openssh.com" => Some(Kind::Setstat),
        _ => None,
    }
}

/// The request that a packet is. None if the server rejects the packet without reading the tree.
/// `opened` returns the path that a handle of the session was opened with.
pub(crate) fn read_request<'o>(
    session: u64,
    packet: &[u8],
    opened: impl Fn(u64) -> Option<&'o [u8]>,
) -> Option<Request> {
    let mut fields = Fields::of(packet.get(HEAD..)?);
    let kind = kind_of(packet[4], &mut fields)?;
    let mut request = Request::empty(session, kind);
    if kind.is_by_handle() {
        request.handle = handle(&mut fields)?;
        request.path = opened(request.handle).unwrap_or_default().to_vec();
    } else {
        request.path = path(&mut fields)?;
    }
    match kind {
        kind if kind.is_by_two_paths() => request.new_path = path(&mut fields)?,
        Kind::Open => request.flags = fields.number(4)? as u32,
        Kind::Read | Kind::Write => {
            request.offset = fields.number(8)?;
            request.length = fields.number(4)?;
        }
        _ => {}
    }
    if kind == Kind::Write {
        request.data = fields.take(request.length as usize)?.to_vec();
    }
    // fsync@openssh.com has none.
    if kind.has_attributes() && (packet[4] != EXTENDED || kind != Kind::Fsetstat) {
        request.attributes = attributes(&mut fields)?;
    }
    Some(request)
}

impl Request {
    fn empty(session: u64, kind: Kind) -> Self {
        let (path, new_path, data) = (Vec::new(), Vec::new(), Vec::new());
        let (handle, offset, length, flags) = (0, 0, 0, 0);
        let attributes = Attributes::default();
        Self { session, kind, path, new_path, handle, offset, length, flags, data, attributes }
    }
}

/// A REALPATH of this path, with the packet's id.
pub(crate) fn realpath(packet: &[u8], path: &[u8]) -> Vec<u8> {
    string(&[&[REALPATH], &packet[5..HEAD], &string(path)].concat())
}

/// An OPEN or MKDIR with these ids in its attributes. None if its fields are not valid.
pub(crate) fn with_ids(packet: &[u8], owner: Owner) -> Option<Vec<u8>> {
    let mut fields = Fields::of(packet.get(HEAD..)?);
    fields.string()?;
    if packet[4] == OPEN {
        fields.take(4)?;
    }
    let begin = packet.len() - fields.rest().len();
    let flags = fields.number(4)? as u32;
    let size = fields.take(if flags & SIZE == 0 { 0 } else { 8 })?;
    fields.take(if flags & OWNER == 0 { 0 } else { 8 })?;
    let flags = (flags | OWNER).to_be_bytes();
    let ids = [owner.uid.to_be_bytes(), owner.gid.to_be_bytes()].concat();
    Some(string(&[&packet[4..begin], &flags, size, &ids, fields.rest()].concat()))
}

/// A packet with its paths below this directory. None if it stays as it is. A client can neither
/// remove nor rename the directory itself.
pub(crate) fn below_root(packet: &[u8], root: &[u8]) -> Option<Vec<u8>> {
    let mut fields = Fields::of(packet.get(HEAD..)?);
    let kind = kind_of(packet[4], &mut fields)?;
    if root == b"/" || kind.is_by_handle() || kind == Kind::Realpath {
        return None;
    }
    let begin = packet.len() - fields.rest().len();
    let mut paths = vec![arguments::normal(fields.string()?)];
    if kind.is_by_two_paths() {
        paths.push(arguments::normal(fields.string()?));
    }
    let is_root = |path: &Vec<u8>| path == b"/";
    if kind.is_of_entries() && paths.iter().any(is_root) {
        return None;
    }
    let mut body = packet[4..begin].to_vec();
    for path in &paths {
        let below = if is_root(path) { &[][..] } else { path };
        body.extend(string(&[root, below].concat()));
    }
    body.extend(fields.rest());
    Some(string(&body))
}

#[cfg(test)]
mod tests {
    use super::*;

    /// WRITE of `123` at 258 by the handle 5, and what is shorter.
    #[test]
    fn a_request_by_handle() {
        let packet = b"\0\0\0\x20\x06\0\0\0\x01\0\0\0\x08\0\0\0\0\0\0\0\x05\
            \0\0\0\0\0\0\x01\x02\0\0\0\x03123";
        let opened = |handle| if handle == 5 { Some(&b"/f"[..]) } else { None };
        let found = read_request(3, packet, opened).unwrap();
        assert_eq!((found.session, found.kind, found.handle), (3, Kind::Write, 5));
        assert_eq!((&found.path[..], &found.data[..]), (&b"/f"[..], &b"123"[..]));
        assert_eq!((found.offset, found.length), (258, 3));
        for count in 0..packet.len() {
            assert_eq!(read_request(3, &packet[..count], opened), None);
        }
    }

    #[test]
    fn a_rename_and_its_realpath() {
        let packet = b"\0\0\0\x35\xc8\0\0\x01\x02\0\0\0\x18posix-rename@openssh.com\
            \0\0\0\x03/a/\0\0\0\x05/b/./";
        let found = read_request(1, packet, |_| None).unwrap();
        assert_eq!(found.kind, Kind::PosixRename);
        assert_eq!((&found.path[..], &found.new_path[..]), (&b"/a"[..], &b"/b"[..]));
        assert_eq!(realpath(packet, b"/x"), b"\0\0\0\x0b\x10\0\0\x01\x02\0\0\0\x02/x");
        let below = read_request(1, &below_root(packet, b"/d").unwrap(), |_| None).unwrap();
        assert_eq!((&below.path[..], &below.new_path[..]), (&b"/d/a"[..], &b"/d/b"[..]));
        assert_eq!(below_root(packet, b"/"), None);
    }
}
