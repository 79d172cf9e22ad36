// A suite as a user of the Go package writes it.
package mirror

import (
	"errors"
	"io"
	"io/fs"
	"sync"
	"testing"
	"testing/fstest"
	"time"

	"github.com/pkg/sftp"
	"golang.org/x/crypto/ssh"
	"lucernetick"
	"lucernetick/sshtest"
)

var site = fstest.MapFS{
	"index":      {Data: []byte("index")},
	"pages/a":    {Data: make([]byte, 100_000)},
	"pages/b":    {Data: []byte("b")},
	"pages/c/d":  {Data: []byte("d")},
	"pages/zero": {},
}

func over(conn io.ReadWriteCloser) (*sftp.Client, error) {
	return sftp.NewClientPipe(conn, conn)
}

func client(t *testing.T, engine *lucernetick.EngineT) *sftp.Client {
	t.Helper()
	found, err := over(engine.Connect(time.Now))
	if err != nil {
		t.Fatal(err)
	}
	return found
}

// isMirrored compares the whole tree with the site.
func isMirrored(t *testing.T, tree lucernetick.Snapshot) {
	t.Helper()
	count := 0
	fs.WalkDir(site, ".", func(name string, entry fs.DirEntry, err error) error {
		count++
		if entry.IsDir() {
			return nil
		}
		got, err := fs.ReadFile(tree, name)
		if err != nil || string(got) != string(site[name].Data) {
			t.Errorf("%s has %d bytes, %v", name, len(got), err)
		}
		return nil
	})
	if len(tree) != count {
		t.Errorf("%d entries, wanted %d", len(tree), count)
	}
}

func TestMirror(t *testing.T) {
	engine := lucernetick.NewT(t)
	engine.WriteFiles(map[string][]byte{"/old/f": nil, "/index": []byte("0")}, time.Time{})
	for range [2]int{} {
		if err := Mirror(client(t, engine), site, "/", "x"); err != nil {
			t.Fatal(err)
		}
		isMirrored(t, engine.Snapshot())
	}
}

func TestFull(t *testing.T) {
	engine := lucernetick.NewT(t)
	full := engine.DiskFull(50_000)
	if err := Mirror(client(t, engine), site, "/", "x"); err == nil {
		t.Fatal("no error")
	}
	full.End()
	if err := Mirror(client(t, engine), site, "/", "x"); err != nil {
		t.Fatal(err)
	}
	isMirrored(t, engine.Snapshot())
}

func TestWritesToOneFileFail(t *testing.T) {
	engine := lucernetick.NewT(t)
	engine.Refuse(lucernetick.Rule{
		Kind: lucernetick.KindWrite, Path: "/pages/b.*", Times: lucernetick.Always,
		Status: lucernetick.StatusPermissionDenied,
	})
	err := Mirror(client(t, engine), site, "/", "x")
	if !errors.Is(err, fs.ErrPermission) {
		t.Fatal(err)
	}
	for path := range engine.Snapshot() {
		if path == "/pages/b" || path == "/pages/b.x.part" {
			t.Errorf("there is %s", path)
		}
	}
}

func TestCuts(t *testing.T) {
	for cut := int64(1000); cut < 100_000; cut += 5000 {
		engine := lucernetick.NewT(t)
		conn := engine.ConnectWith(time.Now, lucernetick.Faults{CutAfter: cut})
		if cutting, err := over(conn); err == nil {
			if err := Mirror(cutting, site, "/", "x"); err == nil {
				t.Fatalf("no error after %d bytes", cut)
			}
		}
		if err := Mirror(client(t, engine), site, "/", "x"); err != nil {
			t.Fatal(err)
		}
		isMirrored(t, engine.Snapshot())
	}
}

func TestACutOverSSH(t *testing.T) {
	server := sshtest.NewServerT(t)
	server.SetFaultsOf(func(session uint64) lucernetick.Faults {
		return map[uint64]lucernetick.Faults{1: {CutAfter: 20_000}}[session]
	})
	for _, isCut := range []bool{true, false} {
		conn, err := ssh.Dial("tcp", server.Addr, server.ClientConfig())
		if err != nil {
			t.Fatal(err)
		}
		files, err := sftp.NewClient(conn)
		if err != nil {
			t.Fatal(err)
		}
		if err := Mirror(files, site, "/", "x"); (err != nil) != isCut {
			t.Fatal(err)
		}
	}
	isMirrored(t, server.Engine.Snapshot())
}

// Two mirrors of one site at once, each with its own temporary names.
func TestTwoAtOnce(t *testing.T) {
	for seed := uint64(0); seed < 100; seed++ {
		races := lucernetick.NewRaces(seed, 2)
		var both sync.WaitGroup
		for _, id := range []string{"x", "y"} {
			conn, err := races.Connect()
			if err != nil {
				t.Fatal(err)
			}
			both.Add(1)
			go func(id string) {
				defer both.Done()
				files, err := over(conn)
				if err != nil {
					t.Error(err)
					return
				}
				defer files.Close()
				// Pruning, one may remove the other's temporary file.
				Mirror(files, site, "/", id)
			}(id)
		}
		both.Wait()
		tree, err := races.Engine().Snapshot()
		if err != nil || races.Stray() != "" {
			t.Fatal(races.Stray(), err)
		}
		for _, path := range []string{"index", "pages/a", "pages/c/d"} {
			got, err := fs.ReadFile(tree, path)
			if err == nil && string(got) != string(site[path].Data) {
				t.Errorf("seed %d: %s has %d bytes", seed, path, len(got))
			}
		}
		races.Close()
	}
}
