package lucernetick

// #include "lucernetick.h"
import "C"

import (
	"bytes"
	"io"
	"time"
)

const (
	kindMask       = 0o170000
	kindDirectory  = 0o040000
	permissionBits = 0o7777
)

// unit is the granularity of holes: they begin and end at multiples of it, or at the file's end.
const unit = 32768

var zeros [unit]byte

// An Entry is a file or directory of a snapshot.
type Entry struct {
	Mode         uint32 // type and permissions, as in stat(2)
	UID, GID     uint32
	Atime, Mtime time.Time // in whole seconds
	Size         uint64    // 0 for a directory
	// Pieces are a file's bytes without its holes: all other bytes are zeros. A piece begins at a
	// multiple of 32768. Blocks of 32768 zeros are omitted, so that files with equal bytes have
	// equal pieces.
	Pieces []Piece
	// File is equal for all names of a file, and different for different files; 0 for a directory.
	// Each snapshot numbers files from 1 in the order of the tree: a directory comes before its
	// contents, and names are in byte order.
	File int
}

// A Piece is a range of bytes of a file.
type Piece struct {
	Offset uint64
	Bytes  []byte
}

// IsDir reports whether it is a directory.
func (entry Entry) IsDir() bool { return entry.Mode&kindMask == kindDirectory }

// Permissions returns the lowest twelve bits of the mode.
func (entry Entry) Permissions() uint32 { return entry.Mode & permissionBits }

// Contents returns all bytes of a file, with zeros for its holes; nil for a directory. Do not
// modify them: they may be the snapshot's own.
func (entry Entry) Contents() []byte {
	if entry.IsDir() {
		return nil
	}
	if len(entry.Pieces) == 1 && uint64(len(entry.Pieces[0].Bytes)) == entry.Size {
		return entry.Pieces[0].Bytes
	}
	contents := make([]byte, entry.Size)
	for _, piece := range entry.Pieces {
		copy(contents[piece.Offset:], piece.Bytes)
	}
	return contents
}

// ReadAt reads bytes of a file, with zeros for its holes.
func (entry Entry) ReadAt(room []byte, offset int64) (int, error) {
	if offset < 0 || uint64(offset) >= entry.Size {
		return 0, io.EOF
	}
	from, count := uint64(offset), len(room)
	if left := entry.Size - from; uint64(count) > left {
		count = int(left)
	}
	for at := range room[:count] {
		room[at] = 0
	}
	for _, piece := range entry.Pieces {
		if piece.Offset >= from && piece.Offset-from < uint64(count) {
			copy(room[piece.Offset-from:count], piece.Bytes)
		} else if piece.Offset < from && from-piece.Offset < uint64(len(piece.Bytes)) {
			copy(room[:count], piece.Bytes[from-piece.Offset:])
		}
	}
	if count < len(room) {
		return count, io.EOF
	}
	return count, nil
}

// Snapshot returns the whole file system by path, including "/". It has exactly the effects of the
// calls that have taken effect, and does not wait for calls in progress. It opens no session,
// records no call, and changes no time. The engine is locked only while the snapshot is taken, not
// while files are read.
func (engine *Engine) Snapshot() (Snapshot, error) {
	engine.lock.Lock()
	tree, err := engine.take()
	engine.lock.Unlock()
	if err != nil {
		return nil, err
	}
	defer tree.free()
	entries := Snapshot{}
	for at := C.uint64_t(0); ; at++ {
		path, entry, err := tree.entry(at)
		if err != nil {
			return nil, err
		}
		if path == "" {
			return entries, nil
		}
		entries[path] = entry
	}
}

// A taken is a snapshot in the library. It does not change.
type taken struct {
	pointer *C.lt_tree
	room    []byte
	numbers map[uint64]int // file numbers by label
}

// take takes a snapshot. The engine's lock is held.
func (engine *Engine) take() (taken, error) {
	tree := taken{room: make([]byte, unit), numbers: map[uint64]int{}}
	_, err := checked(C.lt_tree_of(engine.pointer, &tree.pointer))
	return tree, err
}

// find returns the entry at a path in normal form, and whether there is one. The engine's lock is
// held.
func (engine *Engine) find(path string) (Entry, bool, error) {
	tree, err := engine.take()
	if err != nil {
		return Entry{}, false, err
	}
	defer tree.free()
	for at := C.uint64_t(0); ; at++ {
		name, entry, err := tree.leaf(at)
		if err != nil || name == "" {
			return Entry{}, false, err
		}
		if name == path {
			entry.Pieces, err = tree.pieces(at, entry.Size)
			return entry, true, err
		}
	}
}

func (tree taken) free() { C.lt_tree_free(tree.pointer) }

// object returns the object at a path, or nil. It searches by halves: a directory comes before its
// contents, and names are in byte order.
func (tree taken) object(names []string) (*object, error) {
	var told C.lt_leaf
	high, err := checked(C.lt_tree_leaf(tree.pointer, beyond, &told))
	for low := int64(0); low < high && err == nil; {
		at := (low + high) / 2
		_, err = checked(C.lt_tree_leaf(tree.pointer, C.uint64_t(at), &told))
		switch order := compareNames(namesOf(string(bytesOf(told.path))), names); {
		case order == 0:
			found := attributesOf(told.attributes)
			mode := found.Permissions
			return &object{
				mode & permissionBits, found.UID, found.GID, mode&kindMask == kindDirectory,
			}, err
		case order < 0:
			low = at + 1
		default:
			high = at
		}
	}
	return nil, err
}

// entry returns the entry at an index, with its path; no path if there is none.
func (tree taken) entry(at C.uint64_t) (string, Entry, error) {
	path, entry, err := tree.leaf(at)
	if err != nil || path == "" {
		return "", Entry{}, err
	}
	entry.Pieces, err = tree.pieces(at, entry.Size)
	return path, entry, err
}

// leaf is like entry, without the bytes of a file.
func (tree taken) leaf(at C.uint64_t) (string, Entry, error) {
	var told C.lt_leaf
	count, err := checked(C.lt_tree_leaf(tree.pointer, at, &told))
	if err != nil || at >= C.uint64_t(count) {
		return "", Entry{}, err
	}
	found := attributesOf(told.attributes)
	entry := Entry{
		Mode: found.Permissions, UID: found.UID, GID: found.GID,
		Atime: found.Atime, Mtime: found.Mtime, Size: found.Size,
	}
	if !entry.IsDir() {
		entry.File = tree.number(uint64(told.label))
	}
	return string(bytesOf(told.path)), entry, nil
}

// number returns the number of a file.
func (tree taken) number(label uint64) int {
	if tree.numbers[label] == 0 {
		tree.numbers[label] = len(tree.numbers) + 1
	}
	return tree.numbers[label]
}

// pieces returns the bytes of a file, in the form of an Entry.
func (tree taken) pieces(at C.uint64_t, size uint64) ([]Piece, error) {
	var pieces []Piece
	for offset := uint64(0); offset < size; {
		gap, err := checked(C.lt_tree_gap(tree.pointer, at, C.uint64_t(offset)))
		if err != nil {
			return nil, err
		}
		if gap > 0 {
			offset += uint64(gap)
			continue
		}
		count, err := checked(C.lt_tree_read(tree.pointer, at, C.uint64_t(offset), start(tree.room),
			unit))
		if err != nil {
			return nil, err
		}
		pieces = added(pieces, offset, tree.room[:count])
		offset += unit
	}
	return pieces, nil
}

// added appends bytes to pieces, unless they are all zeros.
func added(pieces []Piece, offset uint64, more []byte) []Piece {
	if bytes.Equal(more, zeros[:len(more)]) {
		return pieces
	}
	if last := len(pieces) - 1; last >= 0 &&
		pieces[last].Offset+uint64(len(pieces[last].Bytes)) == offset {
		pieces[last].Bytes = append(pieces[last].Bytes, more...)
		return pieces
	}
	return append(pieces, Piece{offset, append([]byte(nil), more...)})
}
