//! Copies from folders of the system, and to them.

use crate::reading::{Entered, Folder};
use crate::{linux, Engine, Entry, Snapshot};
use std::collections::{BTreeMap, BTreeSet};
use std::ffi::{CString, OsStr};
use std::fmt;
use std::fs::{self, Metadata, OpenOptions, Permissions};
use std::io::{self, ErrorKind};
use std::os::unix::ffi::OsStrExt;
use std::os::unix::fs::{DirBuilderExt, FileExt, FileTypeExt, MetadataExt};
use std::os::unix::fs::{OpenOptionsExt, PermissionsExt};
use std::path::{Path, PathBuf};
use std::time::{SystemTime, UNIX_EPOCH};

impl Snapshot {
    /// Writes the tree to a folder of the system, which it makes if necessary: names, contents,
    /// times, hard links, holes of sparse files, and the nine lowest permission bits. It does not
    /// set owners. It replaces nothing: an existing file is `AlreadyExists`.
    pub fn save(&self, folder: impl AsRef<Path>) -> io::Result<()> {
        self.save_each(folder.as_ref(), |_, fault| Err(fault))
    }

    /// As `save`, but continues after an error. Returns the paths that could not be written, with
    /// their errors. Fails only if it cannot make the folder.
    pub fn save_all(&self, folder: impl AsRef<Path>) -> io::Result<Vec<(Vec<u8>, io::Error)>> {
        let mut failed = Vec::new();
        self.save_each(folder.as_ref(), |path, fault| {
            failed.push((path.to_vec(), fault));
            Ok(())
        })?;
        Ok(failed)
    }

    fn save_each(
        &self,
        folder: &Path,
        mut failed: impl FnMut(&[u8], io::Error) -> io::Result<()>,
    ) -> io::Result<()> {
        fs::create_dir_all(folder)?;
        let mut names = BTreeMap::new();
        let mut missing = BTreeSet::new();
        for (path, entry) in self.iter().filter(|(path, _)| *path != b"/") {
            if let Err(fault) = make(entry, below(folder, path), &mut names) {
                missing.insert(path);
                failed(path, fault)?;
            }
        }
        // The contents of a directory come before it in this order.
        for (path, entry) in self.iter().rev().filter(|(path, _)| !missing.contains(path)) {
            if let Err(fault) = set_attributes(entry, &below(folder, path)) {
                failed(path, fault)?;
            }
        }
        Ok(())
    }
}

/// The location of a path of the tree in a folder.
fn below(folder: &Path, path: &[u8]) -> PathBuf {
    folder.join(OsStr::from_bytes(&path[1..]))
}

/// Makes a directory, a file, or a hard link, not yet readable by others.
fn make(entry: &Entry, to: PathBuf, names: &mut BTreeMap<u64, PathBuf>) -> io::Result<()> {
    let file = match entry.file {
        Some(file) => file,
        None => return fs::DirBuilder::new().mode(0o700).create(to),
    };
    if let Some(first) = names.get(&file) {
        return fs::hard_link(first, to);
    }
    let made = OpenOptions::new().write(true).create_new(true).mode(0o600).open(&to)?;
    names.insert(file, to);
    for piece in &entry.pieces {
        made.write_all_at(&piece.bytes, piece.offset)?;
    }
    made.set_len(entry.size)
}

fn set_attributes(entry: &Entry, to: &Path) -> io::Result<()> {
    fs::set_permissions(to, Permissions::from_mode(entry.mode & 0o777))?;
    let path = CString::new(to.as_os_str().as_bytes())?;
    let times = [entry.atime, entry.mtime];
    let times = times.map(|moment| {
        let since = moment.duration_since(UNIX_EPOCH).unwrap_or_default();
        linux::Timespec { seconds: since.as_secs() as i64, nanoseconds: 0 }
    });
    // SAFETY: the path is NUL-terminated, and both times are valid.
    let answer = unsafe { linux::utimensat(linux::AT_FDCWD, path.as_ptr(), times.as_ptr(), 0) };
    if answer == 0 {
        return Ok(());
    }
    Err(io::Error::last_os_error())
}

type Skip<'a> = Box<dyn FnMut(&Path, &str) + 'a>;

/// The options of `Engine::write_folder`.
///
/// ```
/// use lucernetick::{Engine, FolderOptions};
///
/// let mut engine = Engine::new()?;
/// let skip = |path: &std::path::Path, kind: &str| println!("{} is {}", path.display(), kind);
/// engine.write_folder("src", FolderOptions::default().attributes().skip(skip))?;
/// # Ok::<(), std::io::Error>(())
/// ```
#[must_use]
pub struct FolderOptions<'a> {
    moment: SystemTime,
    attributes: bool,
    skip: Option<Skip<'a>>,
}

impl Default for FolderOptions<'_> {
    fn default() -> Self {
        Self { moment: UNIX_EPOCH, attributes: false, skip: None }
    }
}

impl fmt::Debug for FolderOptions<'_> {
    fn fmt(&self, f: &mut fmt::Formatter<'_>) -> fmt::Result {
        f.debug_struct("FolderOptions")
            .field("attributes", &self.attributes)
            .finish_non_exhaustive()
    }
}

impl<'a> FolderOptions<'a> {
    /// The timestamp of the new files, by default 1970.
    pub fn moment(self, moment: SystemTime) -> Self {
        Self { moment, ..self }
    }

    /// Copies permissions, owners and times, as the option `--tree` of the programs does.
    pub fn attributes(self) -> Self {
        Self { attributes: true, ..self }
    }

    /// Is called with the path of anything else than a file or a directory, and what it is, as
    /// `a symbolic link`. It is skipped; without the function it is an error.
    pub fn skip(self, skip: impl FnMut(&Path, &str) + 'a) -> Self {
        Self { skip: Some(Box::new(skip)), ..self }
    }
}

/// A folder that is copied into an engine.
struct Copying<'a> {
    engine: &'a mut Engine,
    options: FolderOptions<'a>,
    /// The first names of files.
    names: BTreeMap<(u64, u64), Vec<u8>>,
    found: Vec<(Vec<u8>, Metadata)>,
}

impl Engine {
    /// An engine with a copy of a folder of the system: names, contents and hard links, as by
    /// `write_files`, but no permissions or times. Anything else than files and directories is an
    /// error.
    pub fn from_folder(folder: impl AsRef<Path>, moment: SystemTime) -> io::Result<Self> {
        let mut engine = Engine::new()?;
        engine.write_folder(folder, FolderOptions::default().moment(moment))?;
        Ok(engine)
    }

    /// Makes or replaces all files and directories of a folder of the system, as `from_folder`,
    /// with these options. It follows no symbolic link but the folder itself. If a file changes so
    /// that it cannot be read as it was, that is an error.
    pub fn write_folder(
        &mut self,
        folder: impl AsRef<Path>,
        options: FolderOptions<'_>,
    ) -> io::Result<()> {
        let (names, found) = (BTreeMap::new(), Vec::new());
        let mut copying = Copying { engine: self, options, names, found };
        let mut folder = Folder::new(folder.as_ref())?;
        let mut waiting = vec![Vec::new()];
        while let Some(names) = waiting.pop() {
            folder.enter(&names)?;
            for name in folder.list()? {
                let entry = folder.entry(&name)?;
                let inside = [&names[..], &[name]].concat();
                if entry.status.is_dir() {
                    copying.take_directory(&entry)?;
                    waiting.push(inside);
                } else {
                    copying.take_file(&folder, &entry)?;
                }
            }
        }
        if copying.options.attributes {
            copying.engine.set_found(&copying.found)?;
        }
        Ok(())
    }
}

impl Copying<'_> {
    fn take_directory(&mut self, entry: &Entered) -> io::Result<()> {
        self.found.push((entry.path.clone(), entry.status.clone()));
        Ok(self.engine.make_directories(&entry.path, self.options.moment)?)
    }

    fn take_file(&mut self, folder: &Folder, entry: &Entered) -> io::Result<()> {
        let (status, path) = (&entry.status, &entry.path);
        if !status.is_file() {
            return match &mut self.options.skip {
                Some(skip) => {
                    skip(&entry.place, kind_name(status));
                    Ok(())
                }
                None => {
                    let text =
                        format!("{} is neither a file nor a directory", entry.place.display());
                    Err(io::Error::new(ErrorKind::InvalidInput, text))
                }
            };
        }
        let file = (status.dev(), status.ino());
        self.found.push((path.clone(), status.clone()));
        match self.names.get(&file) {
            Some(first) => self.engine.hard_link(first, path, self.options.moment)?,
            None => {
                let contents = folder.contents(entry)?;
                self.engine.write_files([(path, contents)], self.options.moment)?;
                self.names.insert(file, path.clone());
            }
        }
        Ok(())
    }
}

/// What a tree cannot have.
fn kind_name(found: &Metadata) -> &'static str {
    let kind = found.file_type();
    match (kind.is_symlink(), kind.is_fifo(), kind.is_socket()) {
        (true, _, _) => "a symbolic link",
        (_, true, _) => "a FIFO",
        (_, _, true) => "a socket",
        _ => "a device",
    }
}
