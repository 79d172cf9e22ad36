//! Reads folders of the system by file descriptors: a name that becomes a symbolic link meanwhile
//! is never followed, and a FIFO never blocks. A folder may be deep.

use crate::linux::{O_DIRECTORY, O_NOFOLLOW, O_NONBLOCK, O_PATH};
use std::ffi::{OsStr, OsString};
use std::fs::{self, File, Metadata, OpenOptions};
use std::io::{self, ErrorKind, Read};
use std::os::raw::c_int;
use std::os::unix::ffi::OsStrExt;
use std::os::unix::fs::{MetadataExt, OpenOptionsExt};
use std::os::unix::io::AsRawFd;
use std::path::{Path, PathBuf};

/// A folder, and the directory in it that is open.
pub(crate) struct Folder {
    top: PathBuf,
    names: Vec<OsString>,
    directory: File,
}

/// An entry of the directory that is open.
pub(crate) struct Entered {
    name: OsString,
    /// Its path in the tree.
    pub(crate) path: Vec<u8>,
    /// Its path in the system.
    pub(crate) place: PathBuf,
    pub(crate) status: Metadata,
}

impl Folder {
    pub(crate) fn new(top: &Path) -> io::Result<Self> {
        let directory = opened(top, O_DIRECTORY)?;
        Ok(Self { top: top.to_path_buf(), names: Vec::new(), directory })
    }

    /// Opens a directory: from its parent if that is open, and otherwise name by name.
    pub(crate) fn enter(&mut self, names: &[OsString]) -> io::Result<()> {
        let parent = names.split_last().map(|(_, parent)| parent);
        if parent != Some(&self.names[..]) {
            self.directory = opened(&self.top, O_DIRECTORY)?;
            self.names.clear();
        }
        for name in &names[self.names.len()..] {
            self.directory = self.open(name, O_DIRECTORY | O_NOFOLLOW)?;
            self.names.push(name.clone());
        }
        Ok(())
    }

    /// The names in the directory that is open, sorted.
    pub(crate) fn list(&self) -> io::Result<Vec<OsString>> {
        let entries = fs::read_dir(self.reached(OsStr::new(".")))?;
        let mut names = entries
            .map(|entry| entry.map(|entry| entry.file_name()))
            .collect::<io::Result<Vec<_>>>()?;
        names.sort();
        Ok(names)
    }

    pub(crate) fn entry(&self, name: &OsStr) -> io::Result<Entered> {
        let place = self.place(name);
        let looked = self.open(name, O_PATH | O_NOFOLLOW)?;
        let status = looked.metadata().map_err(|fault| at(&place, fault))?;
        let names = self.names.iter().map(OsString::as_os_str).chain([name]);
        let path = names.flat_map(|name| [b"/", name.as_bytes()].concat()).collect();
        Ok(Entered { name: name.to_os_string(), path, place, status })
    }

    /// The contents of a file. What is opened must be what was seen, and keep its size.
    pub(crate) fn contents(&self, entry: &Entered) -> io::Result<Vec<u8>> {
        let file = self.open(&entry.name, O_NOFOLLOW | O_NONBLOCK)?;
        let status = |file: &File| file.metadata().map_err(|fault| at(&entry.place, fault));
        let opened = status(&file)?;
        let is_seen = (opened.dev(), opened.ino()) == (entry.status.dev(), entry.status.ino());
        if !opened.is_file() || !is_seen {
            return Err(changed(&entry.place, "was replaced"));
        }
        let mut contents = Vec::new();
        let read = (&file).take(opened.len()).read_to_end(&mut contents);
        let count = read.map_err(|fault| at(&entry.place, fault))? as u64;
        let now = status(&file)?.len();
        if now < opened.len() || count < opened.len() {
            return Err(changed(&entry.place, "shrank"));
        }
        if now > opened.len() {
            return Err(changed(&entry.place, "grew"));
        }
        Ok(contents)
    }

    fn open(&self, name: &OsStr, flags: c_int) -> io::Result<File> {
        let named = |fault: io::Error| at(&self.place(name), fault);
        OpenOptions::new().read(true).custom_flags(flags).open(self.reached(name)).map_err(named)
    }

    /// The path by which the system reaches a name through the descriptor of the directory.
    fn reached(&self, name: &OsStr) -> PathBuf {
        let directory = format!("/proc/self/fd/{}", self.directory.as_raw_fd());
        Path::new(&directory).join(name)
    }

    fn place(&self, name: &OsStr) -> PathBuf {
        let mut place = self.top.clone();
        place.extend(&self.names);
        place.join(name)
    }
}

fn opened(path: &Path, flags: c_int) -> io::Result<File> {
    let file = OpenOptions::new().read(true).custom_flags(flags).open(path);
    file.map_err(|fault| at(path, fault))
}

/// An error with the path.
fn at(path: &Path, fault: io::Error) -> io::Error {
    io::Error::new(fault.kind(), format!("{}: {}", path.display(), fault))
}

fn changed(path: &Path, how: &str) -> io::Error {
    let text = format!("{} {} while it was read", path.display(), how);
    io::Error::new(ErrorKind::InvalidData, text)
}
