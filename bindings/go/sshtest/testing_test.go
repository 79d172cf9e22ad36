package sshtest_test

import (
	"crypto/ed25519"
	"crypto/rand"
	"errors"
	"fmt"
	"io"
	"os"
	"os/exec"
	"path"
	"path/filepath"
	"runtime"
	"strings"
	"sync"
	"testing"
	"time"

	"github.com/pkg/sftp"
	"golang.org/x/crypto/ssh"
	"lucernetick"
	"lucernetick/sshtest"
)

func TestAServerOfATest(t *testing.T) {
	clock := lucernetick.NewVirtualTime(time.Unix(1_700_000_000, 0))
	server := sshtest.NewServerT(t, func(server *sshtest.Server) { server.Clock = clock.Now })
	must(t, open(t, server.Dial()).Mkdir("/d"))
	if found := server.Engine.Snapshot()["/d"]; found.Mtime != clock.Now() {
		t.Fatalf("made at %v", found.Mtime)
	}
}

// The client's connection ends after this many bytes of the subsystem in one direction.
func TestACutOverSSH(t *testing.T) {
	const begun = 10_000
	for _, more := range []int64{0, 1, 50_000} {
		server := sshtest.NewServerT(t)
		server.SetFaults(lucernetick.Faults{CutAfter: begun + more})
		client := server.Dial()
		session := open(t, client)
		file, err := session.Create("/f")
		must(t, err)
		for wrote := 0; err == nil; wrote += 1000 {
			if wrote > begun+50_000 {
				t.Fatal("the connection is not cut")
			}
			_, err = file.Write(make([]byte, 1000))
		}
		if client.Wait() == nil {
			t.Error("the connection did not end")
		}
		// A WRITE has 29 bytes before its data, INIT and OPEN fewer than 100 together.
		size := int64(server.Engine.Snapshot()["/f"].Size)
		if wanted := (begun + more - 100) / 1029 * 1000; size < wanted-1000 || size > wanted+1000 {
			t.Errorf("%d bytes arrived, not about %d", size, wanted)
		}
		if err := server.Err(); err != nil {
			t.Error(err)
		}
	}
}

// Only the second session is cut.
func TestFaultsOfASession(t *testing.T) {
	server := sshtest.NewServerT(t)
	server.SetFaultsOf(func(session uint64) lucernetick.Faults {
		if session == 2 {
			return lucernetick.Faults{CutAfter: 1}
		}
		return lucernetick.Faults{}
	})
	for number := 1; number <= 3; number++ {
		_, err := sftp.NewClient(server.Dial())
		if (err != nil) != (number == 2) {
			t.Fatalf("session %d: %v", number, err)
		}
	}
}

// It is a latency: requests that are sent ahead overlap.
func TestADelayOverSSH(t *testing.T) {
	const delay, most = 300 * time.Millisecond, 1 << 20
	server := sshtest.NewServerT(t)
	server.Engine.WriteFiles(map[string][]byte{"/f": drawn(most)}, time.Unix(0, 0))
	server.SetFaults(lucernetick.Faults{Delay: delay})
	client := open(t, server.Dial())
	begin := time.Now()
	_, err := client.Stat("/f")
	must(t, err)
	if passed := time.Since(begin); passed < delay {
		t.Fatalf("a reply after %v", passed)
	}
	// 32 chunks, which the client requests ahead.
	begin = time.Now()
	got, err := get(client, "/f")
	must(t, err)
	if passed := time.Since(begin); len(got) != most || passed > 32*delay*3/4 {
		t.Fatalf("%d bytes after %v", len(got), passed)
	}
}

// A server closes although replies are late.
func TestALateReplyAndClose(t *testing.T) {
	server := sshtest.NewServerT(t)
	server.SetFaults(lucernetick.Faults{Delay: time.Hour})
	told := make(chan error, 1)
	client := server.Dial()
	go func() {
		_, err := sftp.NewClient(client)
		told <- err
	}()
	time.Sleep(100 * time.Millisecond)
	must(t, server.Close())
	if err := <-told; err == nil {
		t.Fatal("the client has a session")
	}
}

func TestChunksOverSSH(t *testing.T) {
	server := sshtest.NewServerT(t)
	server.SetFaults(lucernetick.Faults{Chunk: 100})
	must(t, putAndGet(open(t, server.Dial()), "/f", drawn(10_000)))
}

func TestFaultsOutOfRange(t *testing.T) {
	server := sshtest.NewServerT(t)
	defer func() {
		if told := fmt.Sprint(recover()); !strings.Contains(told, "Chunk must be from 0") {
			t.Fatal(told)
		}
	}()
	server.SetFaults(lucernetick.Faults{Chunk: -1})
}

// What stops a server, and a part of its error.
var stops = map[string]func(*lucernetick.Engine, *sshtest.Server){
	"the clock's result must be from 1970": func(_ *lucernetick.Engine, server *sshtest.Server) {
		server.Clock = func() time.Time { return time.Unix(-1, 0) }
	},
	"a panic: no time": func(_ *lucernetick.Engine, server *sshtest.Server) {
		server.Clock = func() time.Time { panic("no time") }
	},
	"a panic: EOF": func(engine *lucernetick.Engine, _ *sshtest.Server) {
		engine.OnCall(nil, func(lucernetick.Call) { panic(io.EOF) })
	},
	"runtime.Goexit, as by t.FailNow": func(engine *lucernetick.Engine, _ *sshtest.Server) {
		engine.OnCall(func(lucernetick.Request) { runtime.Goexit() }, nil)
	},
	"a panic: no faults": func(_ *lucernetick.Engine, server *sshtest.Server) {
		server.SetFaultsOf(func(uint64) lucernetick.Faults { panic("no faults") })
	},
}

// A clock or a callback that fails stops the server: the connections of all clients end, and the
// test gets the error.
func TestAServerStops(t *testing.T) {
	for says, prepare := range stops {
		engine, err := lucernetick.New()
		must(t, err)
		defer engine.Close()
		server := sshtest.NewUnstartedServer(engine)
		prepare(engine, server)
		server.Start()
		// One client waits and sends nothing, the other one uses the server.
		idle := dial(t, server)
		client, err := sftp.NewClient(dial(t, server))
		// The reply to a call whose record stops the server may still be sent.
		for err == nil {
			_, err = client.Stat("/")
		}
		idle.Wait()
		for _, err := range []error{server.Err(), server.Close()} {
			var stopped *lucernetick.StoppedError
			if !errors.As(err, &stopped) || !strings.Contains(err.Error(), says) {
				t.Errorf("wanted %s, got %v", says, err)
			}
		}
		if _, err := engine.Snapshot(); err != nil {
			t.Error(err)
		}
	}
}

// A test that waits for a client ends when the server stops.
func TestWaitingAtAServerThatStops(t *testing.T) {
	engine := lucernetick.NewT(t)
	server := sshtest.NewServer(engine.Engine)
	engine.Check(server.Err)
	engine.OnCall(nil, func(lucernetick.Call) { panic("no time") })
	client, err := sftp.NewClient(dial(t, server))
	must(t, err)
	go client.Mkdir("/a")
	begin := time.Now()
	_, err = engine.Engine.WaitFor("/none", time.Minute)
	var stopped *lucernetick.StoppedError
	if !errors.As(err, &stopped) || time.Since(begin) > 50*time.Second {
		t.Fatal(err)
	}
	if server.Close() == nil {
		t.Fatal("the server did not stop")
	}
}

// Rules, and waiting, over a port.
func TestAnUploadOverSSH(t *testing.T) {
	server := sshtest.NewServerT(t)
	full := server.Engine.DiskFull(5)
	client := open(t, server.Dial())
	done := make(chan error, 1)
	go func() {
		first := put(client, "/f", []byte("123456"))
		full.End()
		if first == nil {
			done <- errors.New("the disk was not full")
			return
		}
		done <- put(client, "/f", []byte("123456"))
	}()
	must(t, <-done)
	if found := server.Engine.WaitFor("/f", time.Minute); found.Size != 6 {
		t.Fatalf("%d bytes", found.Size)
	}
	server.Engine.ReadOnly("")
	if err := client.Remove("/f"); !errors.Is(err, os.ErrPermission) {
		t.Fatal(err)
	}
}

// A login is of a user, who then makes a directory at this path; "" if it is rejected.
type login struct {
	user string
	auth ssh.AuthMethod
	made string
}

// Each user has a password and a root. All of them may log in by a further key.
func TestUsersWithRoots(t *testing.T) {
	_, private, err := ed25519.GenerateKey(rand.Reader)
	must(t, err)
	signer, err := ssh.NewSignerFromKey(private)
	must(t, err)
	server := sshtest.NewServerT(t, func(server *sshtest.Server) {
		server.Users = []sshtest.User{
			{Name: "ann", Password: "1", Root: "/homes/ann"}, {Name: "root", Password: "2"},
		}
		server.PublicKeys = []ssh.PublicKey{signer.PublicKey()}
	})
	for _, one := range []login{
		{"ann", ssh.Password("1"), "/homes/ann/d1"},
		{"ann", ssh.PublicKeys(signer), "/homes/ann/d2"},
		{"root", ssh.Password("2"), "/d3"},
		{"user", ssh.PublicKeys(signer), "/d4"},
		{"ann", ssh.Password("2"), ""},
		{"bob", ssh.PublicKeys(signer), ""},
		{"bob", ssh.Password(""), ""},
	} {
		config := server.ClientConfig()
		config.User, config.Auth = one.user, []ssh.AuthMethod{one.auth}
		client, err := ssh.Dial("tcp", server.Addr, config)
		if (err == nil) != (one.made != "") {
			t.Fatalf("%s: %v", one.user, err)
		}
		if err != nil {
			continue
		}
		must(t, open(t, client).Mkdir("/"+path.Base(one.made)))
		if !server.Engine.Snapshot()[one.made].IsDir() {
			t.Errorf("%s is missing", one.made)
		}
		client.Close()
	}
}

// What a server panics with at its start.
func TestUsersThatAreRejected(t *testing.T) {
	started := func(engine *lucernetick.Engine, users ...sshtest.User) (told string) {
		server := sshtest.NewUnstartedServer(engine)
		defer server.Close()
		defer func() { told = fmt.Sprint(recover()) }()
		server.Users = users
		server.Start()
		return ""
	}
	engine, ann := lucernetick.NewT(t).Engine, sshtest.User{Name: "ann"}
	for says, told := range map[string]string{
		`different names, not "ann"`:  started(engine, ann, ann),
		`different names, not "user"`: started(engine, sshtest.User{Name: "user"}),
		`different names, not ""`:     started(engine, sshtest.User{Password: "1"}),
		"engine must not be nil":      started(nil),
	} {
		if !strings.Contains(told, says) {
			t.Errorf("wanted %q, got %q", says, told)
		}
	}
}

// Ann owns the root that is made for her. Others see her files by their modes.
func TestUsersWithPermissions(t *testing.T) {
	server := sshtest.NewServerT(t, func(server *sshtest.Server) {
		server.UID, server.GID = 2000, 100
		server.Users = []sshtest.User{
			{Name: "ann", Password: "1", Root: "/home/ann", UID: 1000, GID: 100},
		}
	})
	config := server.ClientConfig()
	config.User, config.Auth = "ann", []ssh.AuthMethod{ssh.Password("1")}
	line, err := ssh.Dial("tcp", server.Addr, config)
	must(t, err)
	defer line.Close()
	ann, other := open(t, line), open(t, server.Dial())
	must(t, put(ann, "/f", []byte("1")))
	must(t, ann.Chmod("/f", 0o600))
	if _, err := get(other, "/home/ann/f"); !errors.Is(err, os.ErrPermission) {
		t.Errorf("read with mode 0600: %v", err)
	}
	if err := other.Mkdir("/new"); !errors.Is(err, os.ErrPermission) {
		t.Errorf("made in /: %v", err)
	}
	must(t, ann.Chmod("/f", 0o640))
	if found, err := get(other, "/home/ann/f"); string(found) != "1" || err != nil {
		t.Errorf("read %q, %v", found, err)
	}
	tree := server.Engine.Snapshot()
	for path, uid := range map[string]uint32{"/home": 0, "/home/ann": 1000, "/home/ann/f": 1000} {
		if found := tree[path].UID; found != uid {
			t.Errorf("%s is of %d", path, found)
		}
	}
}

// The same host key in each run.
func TestAFixedHostKey(t *testing.T) {
	_, private, err := ed25519.GenerateKey(rand.Reader)
	must(t, err)
	signer, err := ssh.NewSignerFromKey(private)
	must(t, err)
	for round := 0; round < 2; round++ {
		server := sshtest.NewServerT(t, func(server *sshtest.Server) { server.HostSigner = signer })
		config := server.ClientConfig()
		config.HostKeyCallback = ssh.FixedHostKey(signer.PublicKey())
		client, err := ssh.Dial("tcp", server.Addr, config)
		must(t, err)
		must(t, client.Close())
	}
}

// OpenSSH's client connects by a configuration, also from a folder with a space.
func TestOpenSSHByAConfiguration(t *testing.T) {
	server := sshtest.NewServerT(t)
	config, err := server.WriteSSHConfig(filepath.Join(t.TempDir(), "a folder"))
	must(t, err)
	client := exec.Command("sftp", "-q", "-b", "-", "-F", config, "lucernetick")
	client.Stdin = strings.NewReader("mkdir /d\n")
	printed, err := client.CombinedOutput()
	if err != nil {
		t.Fatalf("%v: %s", err, printed)
	}
	if !server.Engine.Snapshot()["/d"].IsDir() {
		t.Fatal("no directory was made")
	}
}

// left is what two clients leave that race over SSH, by a seed.
func left(t *testing.T, seed uint64) string {
	t.Helper()
	races := lucernetick.NewRaces(seed, 2)
	defer races.Close()
	server := sshtest.NewUnstartedServer(races.Engine())
	server.Races = races
	server.Users = []sshtest.User{{Name: "bob", Password: "2"}}
	server.Start()
	defer server.Close()
	var both sync.WaitGroup
	for _, user := range []string{server.User, "bob"} {
		config := server.ClientConfig()
		config.User = user
		both.Add(1)
		go func() {
			defer both.Done()
			client, err := ssh.Dial("tcp", server.Addr, config)
			if err != nil {
				t.Error(err)
				return
			}
			defer client.Close()
			session, err := sftp.NewClient(client)
			if err != nil {
				t.Error(err)
				return
			}
			defer session.Close()
			session.Mkdir("/d")
			session.Rename("/d", "/by-"+config.User)
		}()
	}
	both.Wait()
	tree, err := races.Engine().Snapshot()
	must(t, err)
	if races.Stray() != "" || server.Err() != nil {
		t.Fatal(races.Stray(), server.Err())
	}
	return fmt.Sprintf("%s: %v", races.Schedule(), len(tree))
}

// Clients that make their own connections race as a seed says. The second session of a user is
// rejected.
func TestARaceOverSSH(t *testing.T) {
	found := map[string]bool{}
	for seed := uint64(0); seed < 10; seed++ {
		first := left(t, seed)
		if again := left(t, seed); again != first {
			t.Errorf("seed %d: %s, then %s", seed, first, again)
		}
		found[first] = true
	}
	if len(found) < 5 {
		t.Errorf("found only %v", found)
	}
}
