//go:build cgo && linux && amd64

package lucernetick

import (
	"fmt"
	"io/fs"
	"os"
	"path/filepath"
	"sort"
	"syscall"
	"time"
)

// Save writes the tree to a folder of the system, which it makes if necessary: names, contents,
// times, hard links, holes of sparse files, and the nine lowest permission bits. It does not set
// owners. It replaces nothing: an existing file is fs.ErrExist.
func (tree Snapshot) Save(folder string) error {
	var first error
	tree.saveEach(folder, func(err error) bool {
		first = err
		return false
	})
	return first
}

// SaveAll is like Save, but continues after an error. It returns all errors, which name the files.
func (tree Snapshot) SaveAll(folder string) []error {
	var failed []error
	tree.saveEach(folder, func(err error) bool {
		failed = append(failed, err)
		return true
	})
	return failed
}

// saveEach writes all entries. It ends at an error for which goOn returns false.
func (tree Snapshot) saveEach(folder string, goOn func(error) bool) {
	if err := os.MkdirAll(folder, 0o777); err != nil {
		goOn(err)
		return
	}
	paths := make([]string, 0, len(tree))
	for at := range tree {
		paths = append(paths, at)
	}
	sort.Strings(paths)
	names := map[int]string{}
	missing := map[string]bool{}
	for _, at := range paths {
		if at == "/" {
			continue
		}
		if err := save(tree[at], filepath.Join(folder, at), names); err != nil {
			missing[at] = true
			if !goOn(err) {
				return
			}
		}
	}
	// The contents of a directory come before it in this order.
	for last := len(paths) - 1; last >= 0; last-- {
		at := paths[last]
		if missing[at] {
			continue
		}
		if err := saveAttributes(tree[at], filepath.Join(folder, at)); err != nil && !goOn(err) {
			return
		}
	}
}

// save makes a directory, a file, or a hard link, not yet readable by others.
func save(entry Entry, to string, names map[int]string) error {
	if entry.IsDir() {
		return os.Mkdir(to, 0o700)
	}
	if first, there := names[entry.File]; there {
		return os.Link(first, to)
	}
	names[entry.File] = to
	file, err := os.OpenFile(to, os.O_WRONLY|os.O_CREATE|os.O_EXCL, 0o600)
	if err != nil {
		return err
	}
	for _, piece := range entry.Pieces {
		if _, err = file.WriteAt(piece.Bytes, int64(piece.Offset)); err != nil {
			break
		}
	}
	return firstOf(firstOf(err, file.Truncate(int64(entry.Size))), file.Close())
}

func saveAttributes(entry Entry, to string) error {
	err := os.Chmod(to, entry.FileMode().Perm())
	return firstOf(err, os.Chtimes(to, entry.Atime, entry.Mtime))
}

func firstOf(err, other error) error {
	if err != nil {
		return err
	}
	return other
}

// FromFS makes an engine with a copy of this tree, as WriteFS does. FromFS(os.DirFS(folder),
// moment) copies a folder of the system.
func FromFS(tree fs.FS, moment time.Time) (*Engine, error) {
	return engineWith(func(engine *Engine) error { return engine.WriteFS(tree, moment) })
}

// FromFolder makes an engine with a copy of a folder of the system, as WriteFolder does.
func FromFolder(folder string, options FolderOptions) (*Engine, error) {
	return engineWith(func(engine *Engine) error { return engine.WriteFolder(folder, options) })
}

// engineWith makes an engine with files that a function writes.
func engineWith(write func(*Engine) error) (*Engine, error) {
	engine, err := New()
	if err != nil {
		return nil, err
	}
	if err := write(engine); err != nil {
		engine.Close()
		return nil, err
	}
	return engine, nil
}

// FolderOptions are those of FromFolder and WriteFolder.
type FolderOptions struct {
	// Moment is the timestamp of the new files.
	Moment time.Time
	// Attributes copies permissions, owners and times, as the option --tree of the programs does.
	Attributes bool
	// Skip is called with the path of anything else than a file or a directory, and what it is, as
	// "a symbolic link". It is skipped; without the function it is an error.
	Skip func(path, kind string)
}

// WriteFS makes or replaces all files and directories of a tree, as WriteFiles and Link do. It
// copies names and contents, but no permissions or times. It keeps hard links if the tree shows
// them, as a folder of the system and a Snapshot do. Anything else than files and directories is an
// error.
func (engine *Engine) WriteFS(tree fs.FS, moment time.Time) error {
	found := newGathered(nil)
	err := fs.WalkDir(tree, ".", func(name string, entry fs.DirEntry, err error) error {
		if err != nil || name == "." {
			return err
		}
		info, err := entry.Info()
		if err != nil {
			return err
		}
		return found.add(name, info, func() ([]byte, error) { return fs.ReadFile(tree, name) })
	})
	if err != nil {
		return err
	}
	return engine.writeFound(found, FolderOptions{Moment: moment})
}

// WriteFolder makes or replaces all files and directories of a folder of the system, as WriteFS
// does, with these options. It follows no symbolic link but the folder itself. If a file changes so
// that it cannot be read as it was, that is an error.
func (engine *Engine) WriteFolder(folder string, options FolderOptions) error {
	found := newGathered(options.Skip)
	reader := folderReader{top: folder, found: found}
	if err := reader.read(); err != nil {
		return err
	}
	return engine.writeFound(found, options)
}

func (engine *Engine) writeFound(found *gathered, options FolderOptions) error {
	if err := engine.WriteFiles(found.files, options.Moment); err != nil {
		return err
	}
	for _, link := range found.links {
		if err := engine.Link(link[0], link[1], options.Moment); err != nil {
			return err
		}
	}
	if !options.Attributes {
		return nil
	}
	var given []pathAttributes
	for _, info := range found.infos {
		given = append(given, pathAttributes{info.path, encodedInfo(info)})
	}
	return engine.setAttributes(given, 0)
}

// A gathered has the contents of a tree.
type gathered struct {
	files map[string][]byte // nil for directories
	names map[interface{}]string
	links [][2]string // of a file's first name and a further one
	infos []pathInfo
	skip  func(path, kind string)
}

// A pathInfo is a file or a directory with its path.
type pathInfo struct {
	path string
	fs.FileInfo
}

func newGathered(skip func(path, kind string)) *gathered {
	return &gathered{files: map[string][]byte{}, names: map[interface{}]string{}, skip: skip}
}

func (found *gathered) add(name string, info fs.FileInfo, read func() ([]byte, error)) error {
	if !info.IsDir() && !info.Mode().IsRegular() {
		if found.skip == nil {
			return fmt.Errorf("lucernetick: %s is neither a file nor a directory", name)
		}
		found.skip(name, kindOf(info.Mode()))
		return nil
	}
	found.infos = append(found.infos, pathInfo{name, info})
	if info.IsDir() {
		found.files[name] = nil
		return nil
	}
	if file := identityOf(info); file != nil {
		if first, there := found.names[file]; there {
			found.links = append(found.links, [2]string{first, name})
			return nil
		}
		found.names[file] = name
	}
	contents, err := read()
	if contents == nil {
		contents = []byte{}
	}
	found.files[name] = contents
	return err
}

// identityOf is equal for all names of a file. It is nil if the tree does not show it.
func identityOf(info fs.FileInfo) interface{} {
	switch told := info.Sys().(type) {
	case *syscall.Stat_t:
		return [2]uint64{uint64(told.Dev), told.Ino}
	case Entry:
		return told.File
	}
	return nil
}

// kindOf says what a tree cannot have.
func kindOf(mode fs.FileMode) string {
	switch {
	case mode&fs.ModeSymlink != 0:
		return "a symbolic link"
	case mode&fs.ModeNamedPipe != 0:
		return "a FIFO"
	case mode&fs.ModeSocket != 0:
		return "a socket"
	}
	return "a device"
}
