//! Permission bits, enforced as POSIX does.

use crate::requests::Request;
use crate::taken::Taken;
use crate::{Attributes, Kind, OpenFlag, Refusal};

const READ: u32 = 4;
const WRITE: u32 = 2;
const SEARCH: u32 = 1;
const STICKY: u32 = 0o1000;
/// In attributes: an id that stays as it is.
pub(crate) const KEPT: u32 = u32::MAX;

/// A user and its group.
#[derive(Clone, Copy, Debug)]
pub(crate) struct Owner {
    pub(crate) uid: u32,
    pub(crate) gid: u32,
}

/// A file or a directory of the tree.
#[derive(Clone, Copy, Debug)]
pub(crate) struct Object {
    pub(crate) mode: u32,
    pub(crate) uid: u32,
    pub(crate) gid: u32,
    pub(crate) is_directory: bool,
}

/// A path: its object, and the directory that has its last name, if there are any.
struct Place {
    parent: Option<Object>,
    directory: Vec<u8>,
    found: Option<Object>,
}

impl Owner {
    /// Whether it has these permissions. Those of its own class count, and no others.
    fn may(self, found: &Object, bits: u32) -> bool {
        let shift = match (found.uid == self.uid, found.gid == self.gid) {
            (true, _) => 6,
            (false, true) => 3,
            (false, false) => 0,
        };
        found.mode >> shift & bits == bits
    }

    /// Whether it may add an entry to the directory.
    fn may_change(self, place: &Place) -> bool {
        place.parent.map_or(true, |parent| self.may(&parent, WRITE))
    }

    /// Whether it may remove or replace the entry. With the sticky bit, only the owner of the entry
    /// or of the directory may.
    fn may_remove(self, place: &Place) -> bool {
        let is_own = match (&place.parent, &place.found) {
            (Some(parent), Some(found)) if parent.mode & STICKY != 0 => {
                self.uid == parent.uid || self.uid == found.uid
            }
            _ => true,
        };
        is_own && self.may_change(place)
    }

    fn may_open(self, place: &Place, flags: u32) -> bool {
        let has = |flag| flags & flag != 0;
        let found = match &place.found {
            Some(found) => found,
            None => return !has(OpenFlag::CREATE) || self.may_change(place),
        };
        let (reads, writes) = (has(OpenFlag::READ), has(OpenFlag::WRITE));
        let is_new = has(OpenFlag::CREATE) && has(OpenFlag::EXCL);
        if is_new || found.is_directory && (writes || has(OpenFlag::CREATE)) {
            // The server rejects it.
            return true;
        }
        (!writes || self.may(found, WRITE)) && (writes && !reads || self.may(found, READ))
    }

    /// Whether it may set attributes. Owners set permissions and times, and their own group. The
    /// size needs a permission, or a file that is open for writing.
    fn may_set(self, found: &Object, given: &Attributes, is_open: bool) -> bool {
        if given.size.is_some() && !is_open && !self.may(found, WRITE) {
            return false;
        }
        let (uid, gid) = (given.uid.unwrap_or(KEPT), given.gid.unwrap_or(KEPT));
        let is_set = given.permissions.is_some() || given.mtime.is_some();
        if uid == KEPT && gid == KEPT && !is_set {
            return true;
        }
        found.uid == self.uid
            && [KEPT, found.uid].contains(&uid)
            && [KEPT, found.gid, self.gid].contains(&gid)
    }

    /// Whether it may rename. A directory that moves to another parent changes itself: its entry
    /// `..`.
    fn may_rename(self, old: &Place, new: &Place) -> bool {
        let is_changed = |found: &Object| found.is_directory && old.directory != new.directory;
        let may_move = |found: Object| !is_changed(&found) || self.may(&found, WRITE);
        self.may_remove(old) && self.may_remove(new) && old.found.map_or(true, may_move)
    }
}

/// Why there is no place of a path.
enum Unreachable {
    /// A directory is missing, or is a file: the server replies so.
    Missing,
    Denied,
    Refused(Refusal),
}

impl From<Refusal> for Unreachable {
    fn from(refusal: Refusal) -> Self {
        Unreachable::Refused(refusal)
    }
}

/// The permissions of a user in a snapshot. The client sees the directory `top` as `/`.
pub(crate) struct Permissions<'a> {
    pub(crate) owner: Owner,
    pub(crate) tree: &'a Taken,
    pub(crate) top: &'a [u8],
}

impl Permissions<'_> {
    /// Whether the user may not do this.
    pub(crate) fn deny(&self, request: &Request) -> Result<bool, Refusal> {
        match self.allow(request) {
            Ok(is_allowed) => Ok(!is_allowed),
            Err(Unreachable::Missing) => Ok(false),
            Err(Unreachable::Denied) => Ok(true),
            Err(Unreachable::Refused(refusal)) => Err(refusal),
        }
    }

    fn allow(&self, request: &Request) -> Result<bool, Unreachable> {
        let owner = self.owner;
        if request.kind == Kind::Fsetstat {
            let held = if request.path.is_empty() { None } else { self.object(&request.path)? };
            return Ok(held.map_or(true, |held| owner.may_set(&held, &request.attributes, true)));
        }
        let place = self.reach(&request.path)?;
        Ok(match (request.kind, &place.found) {
            (Kind::Open, _) => owner.may_open(&place, request.flags),
            (Kind::Mkdir, None) => owner.may_change(&place),
            (Kind::Mkdir, Some(_)) | (_, None) => true,
            (Kind::Setstat, Some(found)) => owner.may_set(found, &request.attributes, false),
            (Kind::Opendir, Some(found)) => owner.may(found, READ),
            (Kind::Remove | Kind::Rmdir, Some(_)) => owner.may_remove(&place),
            (Kind::Rename | Kind::PosixRename, Some(_)) => {
                owner.may_rename(&place, &self.reach(&request.new_path)?)
            }
            (Kind::Hardlink, Some(_)) => {
                let new = self.reach(&request.new_path)?;
                new.found.is_some() || owner.may_change(&new)
            }
            _ => true,
        })
    }

    /// The place of a path. Each directory on the way needs the permission to search it.
    fn reach(&self, path: &[u8]) -> Result<Place, Unreachable> {
        let top = if self.top == b"/" { b"" } else { self.top };
        let mut place = Place { parent: None, directory: Vec::new(), found: None };
        let ends = (top.len()..path.len()).filter(|at| path[*at] == b'/' && path.len() > 1);
        for end in ends {
            let parent = self.object(&path[..end])?;
            match parent {
                Some(parent) if parent.is_directory => {
                    if !self.owner.may(&parent, SEARCH) {
                        return Err(Unreachable::Denied);
                    }
                }
                _ => return Err(Unreachable::Missing),
            }
            place.parent = parent;
            place.directory = path[..end].to_vec();
        }
        place.found = self.object(path)?;
        Ok(place)
    }

    fn object(&self, path: &[u8]) -> Result<Option<Object>, Refusal> {
        self.tree.object(path)
    }
}

impl Kind {
    /// Whether requests of this kind need a permission. A handle was opened with one.
    pub(crate) fn needs_permission(self) -> bool {
        !self.is_by_handle() && self != Kind::Realpath || self == Kind::Fsetstat
    }
}
