//go:build cgo && linux && amd64

package lucernetick

import (
	"fmt"
	"io"
	"io/fs"
	"os"
	"path/filepath"
	"sort"
	"strings"
	"syscall"
)

const (
	toList = syscall.O_RDONLY | syscall.O_DIRECTORY | syscall.O_CLOEXEC
	toRead = syscall.O_RDONLY | syscall.O_NOFOLLOW | syscall.O_NONBLOCK | syscall.O_CLOEXEC
	oPath  = 0x200000 // O_PATH, which package syscall does not have
	toLook = oPath | syscall.O_NOFOLLOW | syscall.O_CLOEXEC
)

// A folderReader reads a folder of the system by descriptors. It never follows a name that becomes
// a symbolic link meanwhile, and a FIFO never blocks it. A folder may be deep.
type folderReader struct {
	top   string
	found *gathered
	open  *os.File // the directory that is open
	names []string // its path
}

func (reader *folderReader) read() error {
	waiting := [][]string{nil}
	defer func() { reader.open.Close() }()
	for len(waiting) > 0 {
		last := len(waiting) - 1
		names := waiting[last]
		waiting = waiting[:last]
		if err := reader.enter(names); err != nil {
			return err
		}
		listed, err := reader.open.Readdirnames(-1)
		if err != nil {
			return err
		}
		sort.Strings(listed)
		for _, name := range listed {
			inside := append(names[:len(names):len(names)], name)
			isDir, err := reader.add(inside)
			if err != nil {
				return err
			}
			if isDir {
				waiting = append(waiting, inside)
			}
		}
	}
	return nil
}

// enter opens a directory: from its parent if that is open, and otherwise name by name.
func (reader *folderReader) enter(names []string) error {
	begin := len(names) - 1
	if begin < 0 || reader.open == nil || compareNames(names[:begin], reader.names) != 0 {
		top, err := os.OpenFile(reader.top, toList, 0)
		if err != nil {
			return err
		}
		reader.replace(top)
		begin = 0
	}
	for at := begin; at < len(names); at++ {
		next, err := reader.openAt(names[:at+1], toList|syscall.O_NOFOLLOW)
		if err != nil {
			return err
		}
		reader.replace(next)
	}
	reader.names = names
	return nil
}

func (reader *folderReader) replace(directory *os.File) {
	reader.open.Close()
	reader.open = directory
}

// openAt opens the last of these names in the directory that is open.
func (reader *folderReader) openAt(names []string, flags int) (*os.File, error) {
	place := filepath.Join(append([]string{reader.top}, names...)...)
	for {
		opened, err := syscall.Openat(int(reader.open.Fd()), names[len(names)-1], flags, 0)
		if err == nil {
			return os.NewFile(uintptr(opened), place), nil
		}
		if err != syscall.EINTR {
			return nil, &fs.PathError{Op: "open", Path: place, Err: err}
		}
	}
}

// add adds an entry. It reports whether that is a directory.
func (reader *folderReader) add(names []string) (bool, error) {
	seen, err := reader.openAt(names, toLook)
	if err != nil {
		return false, err
	}
	info, err := seen.Stat()
	seen.Close()
	if err != nil {
		return false, err
	}
	contents := func() ([]byte, error) { return reader.contents(names, info) }
	return info.IsDir(), reader.found.add(strings.Join(names, "/"), info, contents)
}

// contents reads a file. What was opened must be what was seen, and keep its size.
func (reader *folderReader) contents(names []string, seen fs.FileInfo) ([]byte, error) {
	file, err := reader.openAt(names, toRead)
	if err != nil {
		return nil, err
	}
	defer file.Close()
	opened, err := file.Stat()
	if err != nil {
		return nil, err
	}
	if !opened.Mode().IsRegular() || !os.SameFile(seen, opened) {
		return nil, fmt.Errorf("lucernetick: %s was replaced while it was read", file.Name())
	}
	contents, err := io.ReadAll(io.LimitReader(file, opened.Size()))
	if err != nil {
		return nil, err
	}
	now, err := file.Stat()
	switch {
	case err != nil:
		return nil, err
	case now.Size() < opened.Size() || int64(len(contents)) < opened.Size():
		return nil, fmt.Errorf("lucernetick: %s shrank while it was read", file.Name())
	case now.Size() > opened.Size():
		return nil, fmt.Errorf("lucernetick: %s grew while it was read", file.Name())
	}
	return contents, nil
}
