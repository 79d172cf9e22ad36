//go:build cgo && linux && amd64

package lucernetick

import (
	"errors"
	"io"
	"io/fs"
	"path"
	"sort"
	"time"
)

// A Snapshot is a whole file system: entries by absolute path. It is also an fs.FS, with paths
// without a leading "/" and the root "."; there a name that is not UTF-8 cannot be opened.
type Snapshot map[string]Entry

var _ fs.FS = Snapshot(nil)

// modeBits are the permissions that Go represents by other bits.
var modeBits = map[uint32]fs.FileMode{
	0o4000: fs.ModeSetuid,
	0o2000: fs.ModeSetgid,
	0o1000: fs.ModeSticky,
}

// permissionsOf returns the lowest twelve bits of a mode, as in stat(2).
func permissionsOf(mode fs.FileMode) uint32 {
	permissions := uint32(mode.Perm())
	for bit, flag := range modeBits {
		if mode&flag != 0 {
			permissions |= bit
		}
	}
	return permissions
}

// FileMode returns the type and permissions as Go represents them.
func (entry Entry) FileMode() fs.FileMode {
	mode := fs.FileMode(entry.Mode & 0o777)
	for bit, flag := range modeBits {
		if entry.Mode&bit != 0 {
			mode |= flag
		}
	}
	if entry.IsDir() {
		mode |= fs.ModeDir
	}
	return mode
}

// Open opens a file or a directory for reading.
func (tree Snapshot) Open(name string) (fs.File, error) {
	if !fs.ValidPath(name) {
		return nil, &fs.PathError{Op: "open", Path: name, Err: fs.ErrInvalid}
	}
	at := path.Join("/", name)
	entry, there := tree[at]
	if !there {
		return nil, &fs.PathError{Op: "open", Path: name, Err: fs.ErrNotExist}
	}
	info := entryInfo{path.Base(name), entry}
	if !entry.IsDir() {
		return &openFile{info, io.NewSectionReader(entry, 0, int64(entry.Size))}, nil
	}
	return &openDirectory{info, name, tree.below(at)}, nil
}

// below returns the entries of a directory, sorted by name.
func (tree Snapshot) below(directory string) []fs.DirEntry {
	entries := []fs.DirEntry{}
	for at, entry := range tree {
		if at != "/" && path.Dir(at) == directory {
			entries = append(entries, fs.FileInfoToDirEntry(entryInfo{path.Base(at), entry}))
		}
	}
	sort.Slice(entries, func(one, other int) bool {
		return entries[one].Name() < entries[other].Name()
	})
	return entries
}

// An entryInfo is an entry with its name. Sys returns the Entry.
type entryInfo struct {
	name  string
	entry Entry
}

func (info entryInfo) Name() string       { return info.name }
func (info entryInfo) Size() int64        { return int64(info.entry.Size) }
func (info entryInfo) Mode() fs.FileMode  { return info.entry.FileMode() }
func (info entryInfo) ModTime() time.Time { return info.entry.Mtime }
func (info entryInfo) IsDir() bool        { return info.entry.IsDir() }
func (info entryInfo) Sys() interface{}   { return info.entry }

type openFile struct {
	info entryInfo
	*io.SectionReader
}

func (file *openFile) Stat() (fs.FileInfo, error) { return file.info, nil }
func (file *openFile) Close() error               { return nil }

type openDirectory struct {
	info entryInfo
	name string
	rest []fs.DirEntry
}

var _ fs.ReadDirFile = (*openDirectory)(nil)

func (directory *openDirectory) Stat() (fs.FileInfo, error) { return directory.info, nil }
func (directory *openDirectory) Close() error               { return nil }

func (directory *openDirectory) Read([]byte) (int, error) {
	return 0, &fs.PathError{Op: "read", Path: directory.name, Err: errors.New("is a directory")}
}

func (directory *openDirectory) ReadDir(most int) ([]fs.DirEntry, error) {
	count := len(directory.rest)
	if most > 0 && count == 0 {
		return nil, io.EOF
	}
	if most > 0 && most < count {
		count = most
	}
	entries := directory.rest[:count]
	directory.rest = directory.rest[count:]
	return entries, nil
}
