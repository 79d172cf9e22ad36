package lucernetick

import (
	"bytes"
	"errors"
	"fmt"
	"io"
	"os"
	"reflect"
	"sort"
	"sync"
	"testing"
	"time"

	"github.com/pkg/sftp"
)

// connect returns a client of the engine, which is closed at the end of the test.
func connect(t *testing.T, engine *Engine, clock Clock) *sftp.Client {
	t.Helper()
	conn, err := engine.Connect(clock)
	must(t, err)
	client, err := sftp.NewClientPipe(conn, conn)
	must(t, err)
	t.Cleanup(func() { client.Close() })
	return client
}

func newEngine(t *testing.T) *Engine {
	t.Helper()
	engine, err := New()
	must(t, err)
	t.Cleanup(func() { engine.Close() })
	return engine
}

func must(t *testing.T, err error) {
	t.Helper()
	if err != nil {
		t.Fatal(err)
	}
}

// at is a timestamp, in seconds since 1970.
func at(seconds int64) time.Time { return time.Unix(seconds, 0).UTC() }

func same(t *testing.T, got, wanted interface{}) {
	t.Helper()
	if !reflect.DeepEqual(got, wanted) {
		t.Fatalf("wanted %v, got %v", wanted, got)
	}
}

func write(t *testing.T, client *sftp.Client, path string, contents []byte) {
	t.Helper()
	file, err := client.Create(path)
	must(t, err)
	_, err = file.Write(contents)
	must(t, err)
	must(t, file.Close())
}

func read(t *testing.T, client *sftp.Client, path string) []byte {
	t.Helper()
	file, err := client.Open(path)
	must(t, err)
	defer file.Close()
	contents, err := io.ReadAll(file)
	must(t, err)
	return contents
}

func TestWriteAndRead(t *testing.T) {
	engine := newEngine(t)
	client := connect(t, engine, time.Now)
	contents := bytes.Repeat([]byte("0123456789abcdef"), 100000)
	write(t, client, "/f", contents)
	same(t, bytes.Equal(read(t, client, "/f"), contents), true)
	found, err := engine.Snapshot()
	must(t, err)
	same(t, bytes.Equal(found["/f"].Contents(), contents), true)
}

func TestList(t *testing.T) {
	client := connect(t, newEngine(t), time.Now)
	must(t, client.Mkdir("/d"))
	wanted := map[string]int64{}
	for count := 0; count < 40; count++ {
		name := string(rune('A' + count))
		write(t, client, "/d/"+name, make([]byte, count))
		wanted[name] = int64(count)
	}
	entries, err := client.ReadDir("/d")
	must(t, err)
	found := map[string]int64{}
	for _, entry := range entries {
		found[entry.Name()] = entry.Size()
	}
	same(t, found, wanted)
}

func TestRename(t *testing.T) {
	client := connect(t, newEngine(t), time.Now)
	must(t, client.Mkdir("/d"))
	write(t, client, "/f", []byte("1"))
	must(t, client.Rename("/f", "/d/g"))
	must(t, client.PosixRename("/d", "/e"))
	_, err := client.Stat("/f")
	same(t, errors.Is(err, os.ErrNotExist), true)
	same(t, read(t, client, "/e/g"), []byte("1"))
}

func TestTwoSessionsOnOneTree(t *testing.T) {
	engine := newEngine(t)
	first, second := connect(t, engine, time.Now), connect(t, engine, time.Now)
	write(t, first, "/f", []byte("from the first"))
	same(t, read(t, second, "/f"), []byte("from the first"))
	must(t, second.Remove("/f"))
	_, err := first.Stat("/f")
	same(t, errors.Is(err, os.ErrNotExist), true)
}

func TestTimesAreVirtual(t *testing.T) {
	engine := newEngine(t)
	clock := &VirtualTime{}
	client := connect(t, engine, clock.Now)
	clock.Set(at(1700000000))
	must(t, client.Mkdir("/d"))
	info, err := client.Stat("/d")
	must(t, err)
	same(t, info.ModTime().Unix(), int64(1700000000))
	clock.Set(at(7))
	write(t, client, "/d/f", []byte("1"))
	info, err = client.Stat("/d/f")
	must(t, err)
	same(t, info.ModTime().Unix(), int64(7))
	found, err := engine.Snapshot()
	must(t, err)
	same(t, []time.Time{found["/"].Mtime, found["/d"].Mtime, found["/d"].Atime},
		[]time.Time{at(1700000000), at(7), at(1700000000)})
}

// hold runs a session until its call holds the root.
func hold(t *testing.T, session *Session) {
	t.Helper()
	for _, wanted := range []Turn{Wrote, Begun, Moved} {
		turn, err := session.Turn(at(100))
		must(t, err)
		same(t, turn, wanted)
	}
}

func TestAConnWaitsForACallThatIsHeld(t *testing.T) {
	engine := newEngine(t)
	must(t, engine.WriteFiles(map[string][]byte{"/f": []byte("1")}, at(0)))
	held := open(t, engine, makes)
	hold(t, held)
	_, made := snapshot(t, engine)["/a"]
	same(t, made, false)
	same(t, errors.Is(engine.WriteFiles(map[string][]byte{"/g": {}}, at(0)), ErrBlocked), true)
	client := connect(t, engine, time.Now)
	told := make(chan error, 1)
	go func() {
		_, err := client.Stat("/a")
		told <- err
	}()
	select {
	case err := <-told:
		t.Fatalf("answered %v before the other call", err)
	case <-time.After(200 * time.Millisecond):
	}
	_, err := held.Settle(at(100), 1000)
	must(t, err)
	must(t, <-told)
}

// A client that a paused session blocks continues after RunAll has completed both calls.
func TestAConnGoesOnAfterRounds(t *testing.T) {
	engine := newEngine(t)
	held := open(t, engine, makes)
	hold(t, held)
	conn, err := engine.Connect(time.Now)
	must(t, err)
	_, err = conn.Write([]byte(looks))
	must(t, err)
	_, err = io.ReadFull(conn, make([]byte, version))
	must(t, err)
	told := make(chan string, 1)
	go func() {
		reply := make([]byte, len(looked))
		_, err := io.ReadFull(conn, reply)
		told <- string(reply) + fmt.Sprint(err)
	}()
	select {
	case reply := <-told:
		t.Fatalf("answered %q before the other call", reply)
	case <-time.After(200 * time.Millisecond):
	}
	rounds, err := engine.RunAll()
	must(t, err)
	same(t, rounds > 0, true)
	same(t, <-told, looked+"<nil>")
}

func TestManyClientsAtOnce(t *testing.T) {
	engine := newEngine(t)
	var group sync.WaitGroup
	for number := 0; number < 50; number++ {
		name, client := fmt.Sprintf("/d%d", number), connect(t, engine, time.Now)
		group.Add(1)
		go func(name string) {
			defer group.Done()
			if err := client.Mkdir(name); err != nil {
				t.Error(err)
			}
			for count := 0; count < 4; count++ {
				file, err := client.Create(name + "/" + string(rune('a'+count)))
				if err != nil {
					t.Error(err)
					return
				}
				file.Close()
			}
		}(name)
	}
	group.Wait()
	found, err := engine.Snapshot()
	must(t, err)
	same(t, len(found), 1+50+200)
}

func TestAClosedConn(t *testing.T) {
	conn, err := newEngine(t).Connect(time.Now)
	must(t, err)
	must(t, conn.Close())
	must(t, conn.Close())
	_, err = conn.Write([]byte("x"))
	same(t, err, io.ErrClosedPipe)
	_, err = conn.Read(make([]byte, 1))
	same(t, err, io.EOF)
}

func TestFilesAtTheStart(t *testing.T) {
	long := bytes.Repeat([]byte("x"), 300000)
	engine, err := FromFiles(map[string][]byte{
		"/a/b": []byte("one"), "c": {}, "/a/deep/er": long, "/e": nil,
	}, at(77))
	must(t, err)
	defer engine.Close()
	client := connect(t, engine, time.Now)
	same(t, read(t, client, "/a/b"), []byte("one"))
	found, err := engine.Snapshot()
	must(t, err)
	paths := []string{}
	for path, entry := range found {
		paths = append(paths, path)
		same(t, entry.Mtime, at(77))
	}
	sort.Strings(paths)
	same(t, paths, []string{"/", "/a", "/a/b", "/a/deep", "/a/deep/er", "/c", "/e"})
	same(t, found["/a/deep/er"].Contents(), long)
	same(t, found["/c"].Contents(), []byte{})
	same(t, []bool{found["/e"].IsDir(), found["/c"].IsDir()}, []bool{true, false})
	same(t, []uint32{found["/e"].Mode, found["/c"].Mode}, []uint32{0o40755, 0o100644})
}

func TestAFileBelowAFile(t *testing.T) {
	engine := newEngine(t)
	must(t, engine.WriteFiles(map[string][]byte{"/a": {}}, at(0)))
	err := engine.WriteFiles(map[string][]byte{"/a/b": {}}, at(0))
	var status *StatusError
	same(t, errors.As(err, &status), true)
	same(t, []interface{}{status.Code, status.Message}, []interface{}{uint32(4), "Failure"})
}

// Clients with a root each, which they can neither leave nor remove.
func TestClientsWithRoots(t *testing.T) {
	engine := NewT(t)
	engine.WriteFiles(map[string][]byte{"/ann/f": []byte("1"), "/bob/g": []byte("2")}, at(0))
	at := func(root string) *sftp.Client {
		conn, err := engine.ConnectAt(root, time.Now, Faults{})
		must(t, err)
		client, err := sftp.NewClientPipe(conn, conn)
		must(t, err)
		t.Cleanup(func() { client.Close() })
		return client
	}
	ann, bob := at("/ann"), at("/bob/")
	found, err := ann.ReadDir("/")
	must(t, err)
	same(t, []interface{}{len(found), found[0].Name()}, []interface{}{1, "f"})
	_, err = ann.Stat("/../bob/g")
	same(t, errors.Is(err, os.ErrNotExist), true)
	where, err := ann.RealPath(".")
	must(t, err)
	same(t, where, "/")
	must(t, ann.Rename("/f", "h"))
	must(t, ann.PosixRename("h", "/d/../i"))
	must(t, bob.Remove("/g"))
	same(t, bob.RemoveDirectory("/") != nil && ann.Rename("/", "/x") != nil, true)
	tree := engine.Snapshot()
	_, there := tree["/ann/i"]
	same(t, []interface{}{len(tree), there}, []interface{}{4, true})
	rule := engine.Refuse(Rule{Path: "/bob/n"})
	write(t, ann, "/n", []byte("1"))
	_, err = bob.Create("/n")
	same(t, err != nil && rule.Refused() == 1, true)
	_, err = engine.OpenAt("")
	same(t, errors.Is(err, ErrBadPath), true)
}
