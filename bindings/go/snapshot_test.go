package lucernetick

import (
	"bytes"
	"errors"
	"io/fs"
	"net"
	"os"
	"path/filepath"
	"strings"
	"syscall"
	"testing"
	"testing/fstest"
	"time"
)

// grown returns a snapshot of various files and directories, all with the timestamp 77 except /s.
func grown(t *testing.T) Snapshot {
	t.Helper()
	engine, err := FromFiles(map[string][]byte{
		"/a/b/c": []byte("one"), "/a/b-c": []byte("two"), "/a/none": {}, "/a/empty": nil,
		"/a name": []byte("3"), "/caf\u00e9": []byte("4"), "/s": []byte("#!/bin/sh\n"),
		"/l": bytes.Repeat([]byte("long "), 100_000),
	}, at(77))
	must(t, err)
	t.Cleanup(func() { engine.Close() })
	must(t, engine.Link("/a/b/c", "/x/c", at(77)))
	// The permissions of /s are 0o6750, its times 5 and 1700000000.
	set(t, engine, "/s", append(number(4), number(0o6750)...))
	set(t, engine, "/s", append(number(8), append(number(5), number(1_700_000_000)...)...))
	return snapshot(t, engine)
}

func TestASnapshotIsAnFS(t *testing.T) {
	tree := grown(t)
	must(t, fstest.TestFS(tree, "a/b/c", "a/b-c", "a/none", "a/empty", "a name", "caf\u00e9", "l", "s",
		"x/c"))
	empty := snapshot(t, newEngine(t))
	must(t, fstest.TestFS(empty))
	below, err := fs.Sub(tree, "a")
	must(t, err)
	must(t, fstest.TestFS(below, "b/c", "empty"))
}

func TestWhatAnFSTells(t *testing.T) {
	tree := grown(t)
	info, err := fs.Stat(tree, "s")
	must(t, err)
	same(t, info.Mode(), fs.ModeSetuid|fs.ModeSetgid|0o750)
	same(t, info.ModTime().Equal(time.Unix(1_700_000_000, 0)), true)
	same(t, info.Name(), "s")
	same(t, info.Size(), int64(10))
	same(t, info.Sys(), tree["/s"])
	info, err = fs.Stat(tree, ".")
	must(t, err)
	same(t, []interface{}{info.Name(), info.Mode()}, []interface{}{".", fs.ModeDir | 0o755})
	contents, err := fs.ReadFile(tree, "a/b/c")
	must(t, err)
	same(t, string(contents), "one")
	found, err := fs.Glob(tree, "a/*c")
	must(t, err)
	same(t, found, []string{"a/b-c"})
	for name, wanted := range map[string]error{
		"none": fs.ErrNotExist, "s/x": fs.ErrNotExist,
		"/s": fs.ErrInvalid, "a/../s": fs.ErrInvalid, "": fs.ErrInvalid,
	} {
		_, err := tree.Open(name)
		same(t, errors.Is(err, wanted), true)
	}
	_, err = fs.ReadFile(tree, "a")
	same(t, err != nil, true)
}

func TestASnapshotIsSavedAndTakenBack(t *testing.T) {
	tree := grown(t)
	folder := filepath.Join(t.TempDir(), "new", "folder")
	must(t, tree.Save(folder))
	info, err := os.Stat(filepath.Join(folder, "s"))
	must(t, err)
	same(t, info.Mode(), fs.FileMode(0o750))
	same(t, info.ModTime().Unix(), int64(1_700_000_000))
	info, err = os.Stat(filepath.Join(folder, "a/b"))
	must(t, err)
	same(t, info.Mode(), fs.ModeDir|0o755)
	same(t, info.ModTime().Unix(), int64(77))
	one, err := os.Stat(filepath.Join(folder, "x/c"))
	must(t, err)
	other, err := os.Stat(filepath.Join(folder, "a/b/c"))
	must(t, err)
	same(t, os.SameFile(one, other), true)

	engine, err := FromFS(os.DirFS(folder), at(9))
	must(t, err)
	t.Cleanup(func() { engine.Close() })
	again := snapshot(t, engine)
	copied, err := FromFS(tree, at(9))
	must(t, err)
	t.Cleanup(func() { copied.Close() })
	same(t, snapshot(t, copied), again)
	same(t, numbersOf(again), numbersOf(tree))
	for path, entry := range again {
		same(t, entry.Contents(), tree[path].Contents())
		same(t, entry.Mtime, at(9))
	}
	// Nothing is replaced.
	same(t, errors.Is(tree.Save(folder), fs.ErrExist), true)
}

// Directories without permissions are saved with their contents.
func TestASnapshotOfWhatMayNotBeRead(t *testing.T) {
	engine, err := FromFiles(map[string][]byte{"/d/f": []byte("1")}, at(7))
	must(t, err)
	t.Cleanup(func() { engine.Close() })
	set(t, engine, "/d", append(number(4), number(0)...))
	folder := t.TempDir()
	must(t, snapshot(t, engine).Save(folder))
	info, err := os.Stat(filepath.Join(folder, "d"))
	must(t, err)
	same(t, info.Mode(), fs.ModeDir)
	must(t, os.Chmod(filepath.Join(folder, "d"), 0o700))
	contents, err := os.ReadFile(filepath.Join(folder, "d/f"))
	must(t, err)
	same(t, string(contents), "1")
}

func TestATreeOfAnotherFS(t *testing.T) {
	engine, err := FromFS(fstest.MapFS{
		"d/f":   {Data: []byte("1"), Mode: 0o600},
		"none":  {},
		"empty": {Mode: fs.ModeDir},
	}, at(3))
	must(t, err)
	t.Cleanup(func() { engine.Close() })
	found := snapshot(t, engine)
	same(t, len(found), 5)
	same(t, string(found["/d/f"].Contents()), "1")
	same(t, found["/none"].Contents(), []byte{})
	same(t, found["/empty"].IsDir(), true)
	same(t, found["/d/f"].Mode, uint32(0o100644))
	same(t, found["/d/f"].Mtime, at(3))
}

// Symbolic links are not supported, so they are an error.
func TestFoldersThatAreRefused(t *testing.T) {
	folder := t.TempDir()
	must(t, os.WriteFile(filepath.Join(folder, "f"), []byte("1"), 0o600))
	must(t, os.Symlink("f", filepath.Join(folder, "g")))
	_, err := FromFS(os.DirFS(folder), at(0))
	same(t, err.Error(), "lucernetick: g is neither a file nor a directory")
	_, err = FromFS(os.DirFS(filepath.Join(folder, "none")), at(0))
	same(t, errors.Is(err, fs.ErrNotExist), true)
}

// As the option --tree of the programs: permissions, owners and times are copied, and what is
// neither a file nor a directory is skipped.
func TestAFolderWithItsAttributes(t *testing.T) {
	folder := t.TempDir()
	must(t, os.Mkdir(filepath.Join(folder, "d"), 0o700))
	for _, name := range []string{"d/f", "g"} {
		must(t, os.WriteFile(filepath.Join(folder, name), []byte("1"), 0o600))
	}
	must(t, os.Link(filepath.Join(folder, "g"), filepath.Join(folder, "h")))
	must(t, os.Symlink("f", filepath.Join(folder, "d/s")))
	must(t, os.Chmod(filepath.Join(folder, "d/f"), fs.ModeSetuid|0o640))
	must(t, os.Chmod(filepath.Join(folder, "d"), fs.ModeSticky|0o750))
	for name, moment := range map[string]int64{"d/f": 5, "d": 1_700_000_000, "g": -7} {
		must(t, os.Chtimes(filepath.Join(folder, name), at(moment+1), at(moment)))
	}
	var skipped []string
	skip := func(path, kind string) { skipped = append(skipped, path+" is "+kind) }
	engine, err := FromFolder(folder, FolderOptions{at(9), true, skip})
	must(t, err)
	t.Cleanup(func() { engine.Close() })
	tree := snapshot(t, engine)
	same(t, skipped, []string{"d/s is a symbolic link"})
	same(t, []uint32{tree["/d"].Mode, tree["/d/f"].Mode}, []uint32{0o41750, 0o104640})
	same(t, []time.Time{tree["/d"].Mtime, tree["/d/f"].Mtime, tree["/d/f"].Atime},
		[]time.Time{at(1_700_000_000), at(5), at(6)})
	same(t, []int{int(tree["/d/f"].UID), int(tree["/g"].GID)}, []int{os.Getuid(), os.Getgid()})
	// The time is before 1970.
	same(t, []interface{}{tree["/g"].Mtime, tree["/g"].File}, []interface{}{at(0), tree["/h"].File})

	copied, err := FromFS(tree, at(9))
	must(t, err)
	t.Cleanup(func() { copied.Close() })
	same(t, snapshot(t, copied)["/d"].Mode, uint32(0o40755))
	_, err = FromFolder(folder, FolderOptions{})
	same(t, err.Error(), "lucernetick: d/s is neither a file nor a directory")
}

// What is swapped while a folder is read is a file, a link to a secret, or a FIFO.
func TestANameThatBecomesALink(t *testing.T) {
	top := t.TempDir()
	folder, secret := filepath.Join(top, "folder"), filepath.Join(top, "secret")
	must(t, os.Mkdir(folder, 0o700))
	must(t, os.WriteFile(secret, []byte("secret"), 0o600))
	makes := []func(string) error{
		func(name string) error { return os.Symlink(secret, name) },
		func(name string) error { return syscall.Mkfifo(name, 0o600) },
		func(name string) error { return os.WriteFile(name, []byte("fine"), 0o600) },
	}
	ends, ended := make(chan bool), make(chan error)
	go func() {
		for number := 0; ; number++ {
			select {
			case <-ends:
				ended <- nil
				return
			default:
			}
			name := filepath.Join(top, "new")
			err := makes[number%len(makes)](name)
			if err = firstOf(err, os.Rename(name, filepath.Join(folder, "f"))); err != nil {
				ended <- err
				return
			}
		}
	}()
	found := map[string]bool{}
	begin := time.Now()
	// On a busy machine the file is seldom the same one for two calls.
	for time.Since(begin) < 3*time.Second || !found["fine"] && time.Since(begin) < time.Minute {
		engine, err := FromFolder(folder, FolderOptions{Skip: func(string, string) {}})
		if err != nil {
			continue
		}
		found[string(snapshot(t, engine)["/f"].Contents())] = true
		must(t, engine.Close())
	}
	close(ends)
	must(t, <-ended)
	same(t, []bool{found["secret"], found["fine"]}, []bool{false, true})
}

// A file is read while it shrinks or grows, until that is noticed.
func TestAFileThatChangesItsSize(t *testing.T) {
	const size = 20_000_000
	folder := t.TempDir()
	name := filepath.Join(folder, "f")
	for _, one := range []struct {
		size int64
		says string
	}{{10, "f shrank while it was read"}, {2 * size, "f grew while it was read"}} {
		says := ""
		for end := time.Now().Add(time.Minute); says == "" && time.Now().Before(end); {
			must(t, os.WriteFile(name, nil, 0o600))
			must(t, os.Truncate(name, size))
			changed := make(chan error)
			go func() {
				time.Sleep(time.Millisecond)
				changed <- os.Truncate(name, one.size)
			}()
			engine, err := FromFolder(folder, FolderOptions{})
			must(t, <-changed)
			if err != nil {
				says = err.Error()
				continue
			}
			must(t, engine.Close())
		}
		if !strings.HasSuffix(says, one.says) {
			t.Errorf("%q", says)
		}
	}
}

// It is deeper than there may be descriptors.
func TestADeepFolder(t *testing.T) {
	const depth, most = 200, 100
	var limit syscall.Rlimit
	must(t, syscall.Getrlimit(syscall.RLIMIT_NOFILE, &limit))
	few := syscall.Rlimit{Cur: most, Max: limit.Max}
	must(t, syscall.Setrlimit(syscall.RLIMIT_NOFILE, &few))
	defer syscall.Setrlimit(syscall.RLIMIT_NOFILE, &limit)
	top := t.TempDir()
	before, err := os.Getwd()
	must(t, err)
	must(t, os.Chdir(top))
	defer os.Chdir(before)
	for count := 0; count < depth; count++ {
		must(t, os.Mkdir("d", 0o700))
		must(t, os.Chdir("d"))
	}
	must(t, os.WriteFile("f", []byte("1"), 0o600))
	engine, err := FromFolder(top, FolderOptions{})
	must(t, err)
	defer engine.Close()
	same(t, string(snapshot(t, engine)[strings.Repeat("/d", depth)+"/f"].Contents()), "1")
}

// What is skipped is neither opened nor waited for.
func TestAFolderWithAFIFOAndASocket(t *testing.T) {
	folder := t.TempDir()
	must(t, syscall.Mkfifo(filepath.Join(folder, "pipe"), 0o600))
	listening, err := net.Listen("unix", filepath.Join(folder, "socket"))
	must(t, err)
	defer listening.Close()
	skipped := map[string]string{}
	skip := func(path, kind string) { skipped[path] = kind }
	engine, err := FromFolder(folder, FolderOptions{Skip: skip})
	must(t, err)
	must(t, engine.Close())
	same(t, skipped, map[string]string{"pipe": "a FIFO", "socket": "a socket"})
	_, err = FromFolder(filepath.Join(folder, "none"), FolderOptions{})
	same(t, errors.Is(err, fs.ErrNotExist), true)
	_, err = FromFolder(filepath.Join(folder, "pipe"), FolderOptions{})
	same(t, errors.Is(err, syscall.ENOTDIR), true)
}

// No rule applies to a folder that is written.
func TestAFolderThatIsWritten(t *testing.T) {
	engine := NewT(t)
	engine.Refuse(Rule{Times: Always})
	folder := t.TempDir()
	must(t, os.WriteFile(filepath.Join(folder, "f"), []byte("1"), 0o604))
	must(t, engine.WriteFolder(folder, FolderOptions{Attributes: true}))
	same(t, engine.Snapshot()["/f"].Permissions(), uint32(0o604))
}

func TestATreeThatIsSavedInPart(t *testing.T) {
	tree := grown(t)
	folder := t.TempDir()
	same(t, tree.SaveAll(folder), []error(nil))
	must(t, os.Remove(filepath.Join(folder, "s")))
	must(t, os.RemoveAll(filepath.Join(folder, "a/b")))
	failed := tree.SaveAll(folder)
	for _, err := range failed {
		same(t, errors.Is(err, fs.ErrExist), true)
	}
	// All but the root, and what was removed: /s, /a/b and /a/b/c, which is /x/c too.
	same(t, len(failed), len(tree)-4)
	contents, err := os.ReadFile(filepath.Join(folder, "a/b/c"))
	must(t, err)
	same(t, string(contents), "one")
}
