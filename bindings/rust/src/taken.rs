//! Snapshots in the library.

use crate::arguments::unix_time;
use crate::calls::bytes_of;
use crate::permissions::Object;
use crate::tree::{Entry, Piece, DIRECTORY, KIND, PERMISSIONS};
use crate::{checked, Engine, Refusal};
use lucernetick_sys as sys;
use std::cmp::Ordering;
use std::collections::{BTreeMap, HashMap};
use std::ptr;

/// Holes begin and end at multiples of it, or at the file's end.
const UNIT: usize = 32768;

/// A snapshot, which does not change. Dropping it frees it.
pub(crate) struct Taken {
    pointer: *mut sys::Tree,
    /// File numbers by label.
    numbers: HashMap<u64, u64>,
}

impl Drop for Taken {
    fn drop(&mut self) {
        // SAFETY: the pointer is a tree's, or null, and is not used again.
        unsafe { sys::lt_tree_free(self.pointer) }
    }
}

impl Taken {
    pub(crate) fn of(engine: &Engine) -> Result<Self, Refusal> {
        let mut tree = Taken { pointer: ptr::null_mut(), numbers: HashMap::new() };
        // SAFETY: the pointer is an engine's, which only `drop` frees, and the other one is of a
        // local variable. No other thread has this engine.
        checked(unsafe { sys::lt_tree_of(engine.pointer.as_ptr(), &mut tree.pointer) })?;
        Ok(tree)
    }

    /// The entry of each path.
    pub(crate) fn entries(&mut self) -> Result<BTreeMap<Vec<u8>, Entry>, Refusal> {
        let mut entries = BTreeMap::new();
        let mut at = 0;
        while let Some((path, entry)) = self.entry(at)? {
            entries.insert(path, entry);
            at += 1;
        }
        Ok(entries)
    }

    /// The object at a path, if any, by a binary search: a directory comes before its contents, and
    /// names are in byte order.
    pub(crate) fn object(&self, path: &[u8]) -> Result<Option<Object>, Refusal> {
        let mut leaf = sys::Leaf::default();
        let (mut low, mut high) = (0, self.leaf(u64::MAX, &mut leaf)?);
        while low < high {
            let at = low + (high - low) / 2;
            self.leaf(at, &mut leaf)?;
            // SAFETY: no other leaf was read since.
            let found = unsafe { bytes_of(&leaf.path) };
            let order = names(&found).cmp(names(path));
            match order {
                Ordering::Less => low = at + 1,
                Ordering::Greater => high = at,
                Ordering::Equal => return Ok(Some(object_of(&leaf.attributes))),
            }
        }
        Ok(None)
    }

    /// Reads the leaf at an index, if any. Returns the number of leaves.
    fn leaf(&self, at: u64, leaf: &mut sys::Leaf) -> Result<u64, Refusal> {
        // SAFETY: the pointer is a tree's, and the other one is of a variable.
        checked(unsafe { sys::lt_tree_leaf(self.pointer, at, leaf) })
    }

    /// The entry at an index, if any, with its path.
    fn entry(&mut self, at: u64) -> Result<Option<(Vec<u8>, Entry)>, Refusal> {
        let mut leaf = sys::Leaf::default();
        if at >= self.leaf(at, &mut leaf)? {
            return Ok(None);
        }
        // SAFETY: no other leaf was read since.
        let path = unsafe { bytes_of(&leaf.path) };
        let found = &leaf.attributes;
        let mut entry = Entry {
            mode: found.permissions,
            uid: found.uid,
            gid: found.gid,
            atime: unix_time(found.atime),
            mtime: unix_time(found.mtime),
            size: found.size,
            pieces: self.pieces(at, found.size)?,
            file: None,
        };
        if !entry.is_directory() {
            let next = self.numbers.len() as u64 + 1;
            entry.file = Some(*self.numbers.entry(leaf.label).or_insert(next));
        }
        Ok(Some((path, entry)))
    }

    /// The bytes of a file of this size, in the form of an `Entry`.
    fn pieces(&self, at: u64, size: u64) -> Result<Vec<Piece>, Refusal> {
        let mut pieces = Vec::new();
        let mut offset = 0;
        let mut room = vec![0; size.min(UNIT as u64) as usize];
        while offset < size {
            // SAFETY: the pointer is a tree's.
            let gap = checked(unsafe { sys::lt_tree_gap(self.pointer, at, offset) })?;
            if gap > 0 {
                offset += gap;
                continue;
            }
            // SAFETY: as above, and a slice has as many bytes as its length says.
            let count = checked(unsafe {
                sys::lt_tree_read(self.pointer, at, offset, room.as_mut_ptr(), room.len())
            })?;
            add(&mut pieces, offset, &room[..count as usize]);
            offset += UNIT as u64;
        }
        Ok(pieces)
    }
}

/// The names of a path.
fn names(path: &[u8]) -> impl Iterator<Item = &[u8]> {
    path.split(|byte| *byte == b'/').filter(|name| !name.is_empty())
}

fn object_of(found: &sys::Attributes) -> Object {
    Object {
        mode: found.permissions & PERMISSIONS,
        uid: found.uid,
        gid: found.gid,
        is_directory: found.permissions & KIND == DIRECTORY,
    }
}

/// Appends bytes, unless they are all zeros.
fn add(pieces: &mut Vec<Piece>, offset: u64, more: &[u8]) {
    if more.iter().all(|byte| *byte == 0) {
        return;
    }
    match pieces.last_mut() {
        Some(last) if last.offset + last.bytes.len() as u64 == offset => last.bytes.extend(more),
        _ => pieces.push(Piece { offset, bytes: more.to_vec() }),
    }
}
