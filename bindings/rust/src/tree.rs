//! Writing files, and snapshots.

use crate::arguments::{self, seconds};
use crate::calls::status_text;
use crate::taken::Taken;
use crate::{Engine, Error, Kind, Refusal};
use lucernetick_sys as sys;
use std::borrow::Cow;
use std::collections::{btree_map, BTreeMap, BTreeSet};
use std::iter;
use std::ops::Index;
use std::time::SystemTime;

pub(crate) const KIND: u32 = 0o170000;
pub(crate) const DIRECTORY: u32 = 0o040000;
pub(crate) const PERMISSIONS: u32 = 0o7777;

/// A whole file system: entries by absolute path, including `/`. Paths are bytes; index them by
/// text or bytes: `tree["/a"]`, `tree[b"/a"]`.
#[derive(Clone, Debug, Default, PartialEq, Eq)]
pub struct Snapshot {
    entries: BTreeMap<Vec<u8>, Entry>,
}

impl Snapshot {
    pub fn get(&self, path: impl AsRef<[u8]>) -> Option<&Entry> {
        self.entries.get(path.as_ref())
    }

    pub fn contains(&self, path: impl AsRef<[u8]>) -> bool {
        self.entries.contains_key(path.as_ref())
    }

    pub fn len(&self) -> usize {
        self.entries.len()
    }

    /// False, except for `Snapshot::default()`: the root always exists.
    pub fn is_empty(&self) -> bool {
        self.entries.is_empty()
    }

    /// The paths with their entries, in byte order.
    pub fn iter(&self) -> Iter<'_> {
        self.entries.iter().map(|(path, entry)| (path.as_slice(), entry))
    }

    /// The paths as bytes.
    pub fn keys(&self) -> impl Iterator<Item = &[u8]> {
        self.entries.keys().map(Vec::as_slice)
    }

    /// The paths as text. Bytes that are not UTF-8 are replaced.
    pub fn paths(&self) -> impl Iterator<Item = Cow<'_, str>> {
        self.entries.keys().map(|path| String::from_utf8_lossy(path))
    }

    pub fn values(&self) -> impl Iterator<Item = &Entry> {
        self.entries.values()
    }
}

impl<P: AsRef<[u8]> + ?Sized> Index<&P> for Snapshot {
    type Output = Entry;

    /// Panics if the path does not exist, as maps do.
    fn index(&self, path: &P) -> &Entry {
        match self.entries.get(path.as_ref()) {
            Some(entry) => entry,
            None => panic!("nothing has the path {}", String::from_utf8_lossy(path.as_ref())),
        }
    }
}

impl IntoIterator for Snapshot {
    type Item = (Vec<u8>, Entry);
    type IntoIter = btree_map::IntoIter<Vec<u8>, Entry>;

    fn into_iter(self) -> Self::IntoIter {
        self.entries.into_iter()
    }
}

/// An iterator over paths and entries.
type Iter<'a> = iter::Map<
    btree_map::Iter<'a, Vec<u8>, Entry>,
    fn((&'a Vec<u8>, &'a Entry)) -> (&'a [u8], &'a Entry),
>;

impl<'a> IntoIterator for &'a Snapshot {
    type Item = (&'a [u8], &'a Entry);
    type IntoIter = Iter<'a>;

    fn into_iter(self) -> Self::IntoIter {
        self.iter()
    }
}

/// A file or directory of a snapshot.
#[derive(Clone, Debug, PartialEq, Eq)]
#[non_exhaustive]
pub struct Entry {
    /// Type and permissions, as in stat(2).
    pub mode: u32,
    pub uid: u32,
    pub gid: u32,
    pub atime: SystemTime,
    pub mtime: SystemTime,
    /// 0 for a directory.
    pub size: u64,
    /// A file's bytes without its holes: all other bytes are zeros. A piece begins at a multiple of
    /// 32768. Blocks of 32768 zeros are omitted, so that files with equal bytes have equal pieces.
    pub pieces: Vec<Piece>,
    /// Equal for all names of a file, and different for different files; none for a directory. Each
    /// snapshot numbers files from 1 in the order of the tree: a directory comes before its
    /// contents, and names are in byte order.
    pub file: Option<u64>,
}

/// A range of bytes of a file.
#[derive(Clone, Debug, PartialEq, Eq)]
pub struct Piece {
    pub offset: u64,
    pub bytes: Vec<u8>,
}

impl Entry {
    /// All bytes of a file, with zeros for its holes; none for a directory.
    pub fn contents(&self) -> Option<Cow<'_, [u8]>> {
        self.file?;
        match self.pieces.as_slice() {
            [piece] if piece.bytes.len() as u64 == self.size => Some(Cow::from(&piece.bytes)),
            pieces => {
                let mut contents = vec![0; self.size as usize];
                for Piece { offset, bytes } in pieces {
                    let offset = *offset as usize;
                    contents[offset..offset + bytes.len()].copy_from_slice(bytes);
                }
                Some(Cow::from(contents))
            }
        }
    }

    pub fn is_directory(&self) -> bool {
        self.mode & KIND == DIRECTORY
    }

    pub fn permissions(&self) -> u32 {
        self.mode & PERMISSIONS
    }
}

impl Engine {
    /// An engine with these files, as by `write_files`.
    pub fn from_files<P, C, I>(files: I, moment: SystemTime) -> Result<Self, Error>
    where
        P: AsRef<[u8]>,
        C: AsRef<[u8]>,
        I: IntoIterator<Item = (P, C)>,
    {
        let mut engine = Engine::new()?;
        engine.write_files(files, moment)?;
        Ok(engine)
    }

    /// Makes or replaces files, given by paths and contents, with the timestamp `moment`. It sends
    /// requests in new sessions. It makes missing parents. If a path is not valid, nothing is made.
    pub fn write_files<P, C, I>(&mut self, files: I, moment: SystemTime) -> Result<(), Error>
    where
        P: AsRef<[u8]>,
        C: AsRef<[u8]>,
        I: IntoIterator<Item = (P, C)>,
    {
        let files: Vec<(P, C)> = files.into_iter().collect();
        check_files(files.iter().map(|(path, _)| path.as_ref()))?;
        for (path, contents) in files {
            let contents = as_bytes(contents.as_ref());
            self.place(path.as_ref(), None, moment, |engine, path, moment, place| {
                // SAFETY: the pointer is an engine's, which only `drop` frees, the bytes are of
                // slices that outlive the call, and the place is a local variable.
                unsafe { sys::lt_write_file(engine, path, contents, moment, place) }
            })?;
        }
        Ok(())
    }

    /// Makes a directory and its missing parents.
    pub fn make_directories(
        &mut self,
        path: impl AsRef<[u8]>,
        moment: SystemTime,
    ) -> Result<(), Error> {
        self.place(path.as_ref(), None, moment, |engine, path, moment, place| {
            // SAFETY: as above.
            unsafe { sys::lt_make_directory(engine, path, moment, place) }
        })
    }

    /// Adds the new path to the file at the old one, with the timestamp `moment`. It makes missing
    /// parents of the new path. If the new path exists, it fails.
    pub fn hard_link(
        &mut self,
        old: impl AsRef<[u8]>,
        new: impl AsRef<[u8]>,
        moment: SystemTime,
    ) -> Result<(), Error> {
        let old = old.as_ref();
        arguments::path("old", old)?;
        self.place(new.as_ref(), Some(old), moment, |engine, new, moment, place| {
            // SAFETY: as above.
            unsafe { sys::lt_link(engine, as_bytes(old), new, moment, place) }
        })
    }

    /// Writes one path. `old` is the other path of a link.
    fn place(
        &mut self,
        path: &[u8],
        old: Option<&[u8]>,
        moment: SystemTime,
        write: impl FnOnce(*mut sys::Engine, sys::Bytes, u32, *mut sys::Place) -> i64,
    ) -> Result<(), Error> {
        let moment = seconds("moment", moment)?;
        arguments::path("path", path)?;
        let mut place = sys::Place { length: 0, kind: 0 };
        let answer = write(self.pointer.as_ptr(), as_bytes(path), moment, &mut place);
        // If the records cannot be read now, they are read later.
        let _ = self.read_news();
        if answer >= 0 {
            return Ok(());
        }
        let kind = Kind::of_number(place.kind);
        let at = &path[..path.len().min(place.length as usize)];
        Err(error_of(answer, kind, old.filter(|_| kind == Kind::Hardlink), at))
    }

    /// The whole file system. It has exactly the effects of the calls that have taken effect, and
    /// does not wait for calls in progress. It opens no session, records no call, and changes no
    /// time. It fails only if memory runs out.
    pub fn snapshot(&self) -> Result<Snapshot, Refusal> {
        Ok(Snapshot { entries: Taken::of(self)?.entries()? })
    }
}

/// Checks the paths of files: none is the root, or below another one.
fn check_files<'p>(paths: impl Iterator<Item = &'p [u8]>) -> Result<(), Error> {
    let files: BTreeSet<_> =
        paths.map(|path| arguments::path("path", path)).collect::<Result<_, _>>()?;
    for path in &files {
        if path == b"/" {
            return Err(Error::Argument("path must not be the root, a directory".to_string()));
        }
        let ends = (1..path.len()).filter(|at| path[*at] == b'/');
        if let Some(above) = ends.map(|end| &path[..end]).find(|above| files.contains(*above)) {
            let (path, above) = (path.escape_ascii(), above.escape_ascii());
            let why = format!("path \"{}\" must not be below the file \"{}\"", path, above);
            return Err(Error::Argument(why));
        }
    }
    Ok(())
}

/// A slice in the library's form.
fn as_bytes(bytes: &[u8]) -> sys::Bytes {
    sys::Bytes { at: bytes.as_ptr(), length: bytes.len() }
}

fn error_of(answer: i64, kind: Kind, old: Option<&[u8]>, path: &[u8]) -> Error {
    match answer {
        sys::LT_REFUSAL_IS_BLOCKED => Error::Blocked,
        sys::LT_REFUSAL_NO_REPLY => Error::Ended,
        status if status <= sys::LT_REFUSAL_STATUS_BASE => {
            let code = (sys::LT_REFUSAL_STATUS_BASE - status) as u32;
            let paths = old.into_iter().chain([path]);
            let paths = paths.map(|path| format!(" \"{}\"", path.escape_ascii()));
            let request = format!("{}{}", kind, paths.collect::<String>());
            Error::Status { code, message: status_text(code).to_string(), request }
        }
        refusal => Error::Refused(Refusal::of_number(refusal)),
    }
}
