package sshtest_test

import (
	"bytes"
	"errors"
	"fmt"
	"io"
	"math/rand"
	"net"
	"os"
	"os/exec"
	"path/filepath"
	"strings"
	"sync"
	"testing"
	"time"

	"github.com/pkg/sftp"
	"golang.org/x/crypto/ssh"
	"lucernetick"
	"lucernetick/sshtest"
)

func must(t *testing.T, err error) {
	t.Helper()
	if err != nil {
		t.Fatal(err)
	}
}

// start starts a server without files, which is closed at the end of the test.
func start(t *testing.T) (*sshtest.Server, *lucernetick.Engine) {
	t.Helper()
	engine, err := lucernetick.New()
	must(t, err)
	t.Cleanup(func() { engine.Close() })
	server := sshtest.NewServer(engine)
	t.Cleanup(func() { server.Close() })
	return server, engine
}

// dial logs in with the client key.
func dial(t *testing.T, server *sshtest.Server) *ssh.Client {
	t.Helper()
	client, err := ssh.Dial("tcp", server.Addr, server.ClientConfig())
	must(t, err)
	t.Cleanup(func() { client.Close() })
	return client
}

// open opens a session of sftp on a connection.
func open(t *testing.T, client *ssh.Client) *sftp.Client {
	t.Helper()
	session, err := sftp.NewClient(client)
	must(t, err)
	t.Cleanup(func() { session.Close() })
	return session
}

// drawn returns random bytes.
func drawn(count int) []byte {
	data := make([]byte, count)
	rand.New(rand.NewSource(int64(count))).Read(data)
	return data
}

func put(client *sftp.Client, path string, contents []byte) error {
	file, err := client.Create(path)
	if err != nil {
		return err
	}
	if _, err := file.ReadFrom(bytes.NewReader(contents)); err != nil {
		file.Close()
		return err
	}
	return file.Close()
}

func get(client *sftp.Client, path string) ([]byte, error) {
	file, err := client.Open(path)
	if err != nil {
		return nil, err
	}
	defer file.Close()
	var contents bytes.Buffer
	_, err = file.WriteTo(&contents)
	return contents.Bytes(), err
}

// putAndGet stores a file, and reads the same bytes back.
func putAndGet(client *sftp.Client, path string, contents []byte) error {
	if err := put(client, path, contents); err != nil {
		return fmt.Errorf("put: %w", err)
	}
	got, err := get(client, path)
	if err != nil {
		return fmt.Errorf("get: %w", err)
	}
	if !bytes.Equal(got, contents) {
		return fmt.Errorf("%s came back as other bytes, %d of them", path, len(got))
	}
	return nil
}

func TestPutAndGet100MB(t *testing.T) {
	server, engine := start(t)
	contents := drawn(100_000_000)
	must(t, putAndGet(open(t, dial(t, server)), "/f", contents))
	tree, err := engine.Snapshot()
	must(t, err)
	if !bytes.Equal(tree["/f"].Contents(), contents) {
		t.Fatal("the tree has other bytes")
	}
}

func TestFiftyConnectionsAtOnce(t *testing.T) {
	server, engine := start(t)
	// All of them stay open until the last one is done.
	var all, done sync.WaitGroup
	all.Add(50)
	for number := 0; number < 50; number++ {
		client := open(t, dial(t, server))
		path, contents := fmt.Sprintf("/f%d", number), drawn(100_000+number)
		done.Add(1)
		go func() {
			defer done.Done()
			if err := putAndGet(client, path, contents); err != nil {
				t.Error(err)
			}
			all.Done()
			all.Wait()
			if found, err := client.ReadDir("/"); err != nil || len(found) != 50 {
				t.Errorf("%d files in the end, %v", len(found), err)
			}
		}()
	}
	done.Wait()
	tree, err := engine.Snapshot()
	must(t, err)
	for number := 0; number < 50; number++ {
		path := fmt.Sprintf("/f%d", number)
		if !bytes.Equal(tree[path].Contents(), drawn(100_000+number)) {
			t.Errorf("%s has other bytes", path)
		}
	}
}

func TestManyChannelsOfOneConnection(t *testing.T) {
	server, _ := start(t)
	client := dial(t, server)
	var done sync.WaitGroup
	sessions := make([]*sftp.Client, 9)
	for number := range sessions {
		sessions[number] = open(t, client)
	}
	for number := range sessions {
		path, session := fmt.Sprintf("/f%d", number), sessions[number]
		done.Add(1)
		go func() {
			defer done.Done()
			if err := putAndGet(session, path, drawn(1_000_000)); err != nil {
				t.Error(err)
			}
		}()
	}
	done.Wait()
	// Closing one does not affect the others.
	must(t, sessions[0].Close())
	found, err := sessions[1].ReadDir("/")
	must(t, err)
	if len(found) != len(sessions) {
		t.Fatalf("%d files", len(found))
	}
}

// refused returns the error of a login that must fail.
func refused(t *testing.T, server *sshtest.Server, config *ssh.ClientConfig) string {
	t.Helper()
	client, err := ssh.Dial("tcp", server.Addr, config)
	if err == nil {
		client.Close()
		t.Fatal("was let in")
	}
	return err.Error()
}

func TestWhoMayNotLogIn(t *testing.T) {
	server, _ := start(t)
	other, _ := start(t)
	none := "unable to authenticate"

	config := server.ClientConfig()
	config.Auth = other.ClientConfig().Auth
	if told := refused(t, server, config); !strings.Contains(told, none) {
		t.Errorf("with another key: %s", told)
	}
	config = server.ClientConfig()
	config.User = "somebody"
	if told := refused(t, server, config); !strings.Contains(told, none) {
		t.Errorf("as somebody else: %s", told)
	}
	for _, password := range []string{"", "x" + server.Password, other.Password} {
		config.User = server.User
		config.Auth = []ssh.AuthMethod{ssh.Password(password)}
		if told := refused(t, server, config); !strings.Contains(told, none) {
			t.Errorf("with the password %q: %s", password, told)
		}
	}
	config.Auth = nil
	if told := refused(t, server, config); !strings.Contains(told, none) {
		t.Errorf("with nothing: %s", told)
	}
	// A client rejects another host key.
	told := refused(t, other, server.ClientConfig())
	if !strings.Contains(told, "host key mismatch") {
		t.Errorf("at another host: %s", told)
	}
	must(t, putAndGet(open(t, dial(t, server)), "/f", drawn(10)))
}

func TestAPassword(t *testing.T) {
	server, _ := start(t)
	config := server.ClientConfig()
	config.Auth = []ssh.AuthMethod{ssh.Password(server.Password)}
	client, err := ssh.Dial("tcp", server.Addr, config)
	must(t, err)
	defer client.Close()
	must(t, putAndGet(open(t, client), "/f", drawn(10)))
}

// asked is a client that is asked for the password.
func asked(server *sshtest.Server, answer func() string) *ssh.ClientConfig {
	config := server.ClientConfig()
	config.Auth = []ssh.AuthMethod{ssh.KeyboardInteractive(
		func(_, _ string, questions []string, echos []bool) ([]string, error) {
			if len(questions) == 0 {
				return nil, nil
			}
			if len(questions) != 1 || questions[0] != "Password:" || echos[0] {
				return nil, fmt.Errorf("asked %q", questions)
			}
			return []string{answer()}, nil
		},
	)}
	return config
}

func TestAPasswordThatIsAskedFor(t *testing.T) {
	server, _ := start(t)
	config := asked(server, func() string { return server.Password })
	client, err := ssh.Dial("tcp", server.Addr, config)
	must(t, err)
	defer client.Close()
	must(t, putAndGet(open(t, client), "/f", drawn(10)))
	config = asked(server, func() string { return "x" })
	if told := refused(t, server, config); !strings.Contains(told, "unable to authenticate") {
		t.Error(told)
	}
}

// After six wrong passwords the connection is closed. Others can log in.
func TestWrongPasswordsCloseTheConnection(t *testing.T) {
	server, _ := start(t)
	count := 0
	config := server.ClientConfig()
	config.Auth = []ssh.AuthMethod{ssh.RetryableAuthMethod(
		ssh.PasswordCallback(func() (string, error) {
			count++
			return fmt.Sprint("wrong", count), nil
		}), 100,
	)}
	told := refused(t, server, config)
	if count != 6 || strings.Contains(told, "unable to authenticate") {
		t.Errorf("%d passwords, and then %s", count, told)
	}
	must(t, putAndGet(open(t, dial(t, server)), "/f", drawn(10)))
}

// resident returns the memory of this process, in bytes.
func resident(t *testing.T) int {
	t.Helper()
	var size, pages int
	stat, err := os.ReadFile("/proc/self/statm")
	must(t, err)
	_, err = fmt.Sscan(string(stat), &size, &pages)
	must(t, err)
	return pages * os.Getpagesize()
}

// Each of 10 clients asks for 60 MB, and reads nothing. Their requests wait.
func TestClientsThatReadNothingTakeLittleMemory(t *testing.T) {
	server, engine := start(t)
	must(t, engine.WriteFiles(map[string][]byte{"/f": drawn(60_000_000)}, time.Time{}))
	before := resident(t)
	for count := 0; count < 10; count++ {
		session, err := dial(t, server).NewSession()
		must(t, err)
		to, err := session.StdinPipe()
		must(t, err)
		from, err := session.StdoutPipe()
		must(t, err)
		must(t, session.RequestSubsystem("sftp"))
		// INIT and OPEN; its reply ends with the handle.
		_, err = to.Write([]byte("\x00\x00\x00\x05\x01\x00\x00\x00\x03" +
			"\x00\x00\x00\x13\x03\x00\x00\x00\x01\x00\x00\x00\x02/f" +
			"\x00\x00\x00\x01\x00\x00\x00\x00"))
		must(t, err)
		var opened []byte
		for count := 0; count < 2; count++ {
			length := make([]byte, 4)
			_, err = io.ReadFull(from, length)
			must(t, err)
			opened = make([]byte, length[3])
			_, err = io.ReadFull(from, opened)
			must(t, err)
		}
		for number := 0; number < 234; number++ {
			read := append([]byte("\x00\x00\x00\x1d\x05\x00\x00\x00\x01"), opened[len(opened)-12:]...)
			read = append(read, 0, 0, 0, 0, byte(number*4/256), byte(number*4), 0, 0, 0, 3, 255, 0)
			if _, err := to.Write(read); err != nil {
				t.Fatal(err)
			}
		}
	}
	time.Sleep(2 * time.Second)
	if grown := resident(t) - before; grown > 10*12_000_000 {
		t.Errorf("%d bytes for each", grown/10)
	}
}

// A test may set who may log in.
func TestAUserOfTheTests(t *testing.T) {
	_, engine := start(t)
	server := sshtest.NewUnstartedServer(engine)
	server.User, server.Password = "carla", "secret"
	clock := &lucernetick.VirtualTime{}
	clock.Set(time.Unix(1_700_000_000, 0))
	server.Clock = clock.Now
	server.Start()
	t.Cleanup(func() { server.Close() })
	config := server.ClientConfig()
	config.Auth = []ssh.AuthMethod{ssh.Password("secret")}
	client, err := ssh.Dial("tcp", server.Addr, config)
	must(t, err)
	defer client.Close()
	must(t, open(t, client).Mkdir("/d"))
	tree, err := engine.Snapshot()
	must(t, err)
	if client.User() != "carla" || tree["/d"].Mtime.Unix() != 1_700_000_000 {
		t.Fatalf("%s made it at %v", client.User(), tree["/d"].Mtime)
	}
}

// A raw connection to the server, over which an SSH client logs in.
func cuttable(t *testing.T, server *sshtest.Server) (net.Conn, *sftp.Client) {
	t.Helper()
	line, err := net.Dial("tcp", server.Addr)
	must(t, err)
	conn, channels, requests, err := ssh.NewClientConn(line, server.Addr, server.ClientConfig())
	must(t, err)
	return line, open(t, ssh.NewClient(conn, channels, requests))
}

// endless is an endless input, which signals `cut` after a number of bytes.
type endless struct {
	left int
	cut  chan<- bool
}

func (source *endless) Read(room []byte) (int, error) {
	source.left -= len(room)
	if source.left < 0 && source.cut != nil {
		close(source.cut)
		source.cut = nil
	}
	return len(room), nil
}

func TestAConnectionThatIsCut(t *testing.T) {
	server, engine := start(t)
	stays := open(t, dial(t, server))
	line, goes := cuttable(t, server)
	file, err := goes.Create("/f")
	must(t, err)
	cut, told := make(chan bool), make(chan error, 1)
	go func() {
		_, err := io.Copy(file, &endless{10_000_000, cut})
		told <- err
	}()
	<-cut
	line.Close()
	if err := <-told; err == nil {
		t.Fatal("the client wasn't told")
	}
	// The written data stays, and the other client continues.
	must(t, putAndGet(stays, "/g", drawn(1_000_000)))
	tree, err := engine.Snapshot()
	must(t, err)
	if len(tree["/f"].Contents()) < 1_000_000 {
		t.Fatalf("%d bytes of /f are there", len(tree["/f"].Contents()))
	}
	must(t, stays.Remove("/f"))
}

// An engine has at most 256 sessions: each dropped connection frees one.
func TestConnectionsThatAreCutLeaveNoSession(t *testing.T) {
	server, engine := start(t)
	for count := 0; count < 300; count++ {
		line, client := cuttable(t, server)
		must(t, client.Mkdir(fmt.Sprintf("/%d", count)))
		line.Close()
	}
	tree, err := engine.Snapshot()
	must(t, err)
	if len(tree) != 301 {
		t.Fatalf("%d paths", len(tree))
	}
}

// The test's own session blocks the call of a client. The client's connection is dropped, and the
// server still closes.
func TestACallThatIsBlockedIsCut(t *testing.T) {
	server, engine := start(t)
	held, err := engine.Open()
	must(t, err)
	// INIT, and MKDIR of /a; three turns acquire the root.
	must(t, held.Feed([]byte("\x00\x00\x00\x05\x01\x00\x00\x00\x03"+
		"\x00\x00\x00\x0f\x0e\x00\x00\x00\x07\x00\x00\x00\x02/a\x00\x00\x00\x00")))
	for count := 0; count < 3; count++ {
		_, err = held.Turn(time.Unix(100, 0))
		must(t, err)
	}
	line, client := cuttable(t, server)
	told := make(chan error, 1)
	go func() { told <- client.Mkdir("/b") }()
	select {
	case err := <-told:
		t.Fatalf("answered %v before the other call", err)
	case <-time.After(200 * time.Millisecond):
	}
	line.Close()
	if err := <-told; err == nil {
		t.Fatal("the client wasn't told")
	}
	server.Close()
}

// Rejected requests do not affect the connection.
func TestNothingButSFTP(t *testing.T) {
	server, _ := start(t)
	client := dial(t, server)
	for name, asks := range map[string]func(*ssh.Session) error{
		"a shell":     func(session *ssh.Session) error { return session.Shell() },
		"a command":   func(session *ssh.Session) error { return session.Run("true") },
		"a subsystem": func(session *ssh.Session) error { return session.RequestSubsystem("sftp2") },
		"a terminal":  func(session *ssh.Session) error { return session.RequestPty("vt", 24, 80, nil) },
		"a variable":  func(session *ssh.Session) error { return session.Setenv("A", "b") },
	} {
		session, err := client.NewSession()
		must(t, err)
		if asks(session) == nil {
			t.Errorf("%s was given", name)
		}
		session.Close()
	}
	if _, err := client.Dial("tcp", server.Addr); err == nil {
		t.Error("a connection was forwarded")
	}
	if _, err := client.Listen("tcp", "127.0.0.1:0"); err == nil {
		t.Error("a port was forwarded")
	}
	must(t, putAndGet(open(t, client), "/f", drawn(10)))
}

// The 257th session is rejected, and the connection continues.
func TestMoreSessionsThanThereMayBe(t *testing.T) {
	server, engine := start(t)
	client := dial(t, server)
	var last *lucernetick.Session
	for count := 0; count < 256; count++ {
		session, err := engine.Open()
		must(t, err)
		last = session
	}
	if _, err := sftp.NewClient(client); err == nil {
		t.Fatal("a 257th session was opened")
	}
	must(t, last.Close())
	must(t, putAndGet(open(t, client), "/f", drawn(10)))
}

// A session that ends, here by a first packet other than INIT, ends its channel.
func TestASessionThatEnds(t *testing.T) {
	server, _ := start(t)
	session, err := dial(t, server).NewSession()
	must(t, err)
	requests, err := session.StdinPipe()
	must(t, err)
	replies, err := session.StdoutPipe()
	must(t, err)
	must(t, session.RequestSubsystem("sftp"))
	_, err = requests.Write([]byte("\x00\x00\x00\x05\x03\x00\x00\x00\x03"))
	must(t, err)
	sent, err := io.ReadAll(replies)
	must(t, err)
	if len(sent) != 0 {
		t.Fatalf("was sent %q", sent)
	}
}

func TestAServerThatIsClosed(t *testing.T) {
	server, engine := start(t)
	client := open(t, dial(t, server))
	must(t, client.Mkdir("/d"))
	server.Close()
	server.Close()
	if err := client.Mkdir("/e"); err == nil {
		t.Error("the connection goes on")
	}
	if _, err := net.Dial("tcp", server.Addr); err == nil {
		t.Error("the port is open")
	}
	tree, err := engine.Snapshot()
	must(t, err)
	if len(tree) != 2 {
		t.Errorf("%d paths", len(tree))
	}
	// Also a server that was never used.
	unused := sshtest.NewServer(engine)
	unused.Close()
}

// Closing the engine ends its sessions, and the server stays open.
func TestAnEngineThatIsClosed(t *testing.T) {
	server, engine := start(t)
	client := dial(t, server)
	session := open(t, client)
	engine.Close()
	if err := session.Mkdir("/d"); err == nil {
		t.Error("a closed engine made a directory")
	}
	if _, err := sftp.NewClient(client); err == nil {
		t.Error("a closed engine opened a session")
	}
}

// OpenSSH's client, which reads its key and the host key from files.
func TestOpenSSH(t *testing.T) {
	server, engine := start(t)
	folder := t.TempDir()
	key, hosts := filepath.Join(folder, "key"), filepath.Join(folder, "known_hosts")
	must(t, os.WriteFile(key, server.ClientKey(), 0o600))
	must(t, os.WriteFile(hosts, []byte(server.KnownHosts()), 0o600))
	must(t, os.WriteFile(filepath.Join(folder, "sent"), drawn(1_000_000), 0o600))
	host, port, err := net.SplitHostPort(server.Addr)
	must(t, err)
	client := exec.Command("timeout", "300", "sftp", "-q", "-b", "-", "-F", "none", "-P", port,
		"-i", key, "-o", "IdentitiesOnly=yes", "-o", "UserKnownHostsFile="+hosts,
		server.User+"@"+host)
	client.Stdin = strings.NewReader("put sent /f\nget /f got\n")
	client.Dir = folder
	if printed, err := client.CombinedOutput(); err != nil {
		t.Fatalf("%v: %s", err, printed)
	}
	got, err := os.ReadFile(filepath.Join(folder, "got"))
	must(t, err)
	tree, err := engine.Snapshot()
	must(t, err)
	if !bytes.Equal(got, drawn(1_000_000)) || !bytes.Equal(tree["/f"].Contents(), got) {
		t.Fatal("other bytes came back")
	}
}

func TestTheKeyOfAFile(t *testing.T) {
	server, _ := start(t)
	signer, err := ssh.ParsePrivateKey(server.ClientKey())
	must(t, err)
	config := server.ClientConfig()
	config.Auth = []ssh.AuthMethod{ssh.PublicKeys(signer)}
	client, err := ssh.Dial("tcp", server.Addr, config)
	must(t, err)
	defer client.Close()
	_, err = open(t, client).Stat("/none")
	if !errors.Is(err, os.ErrNotExist) {
		t.Fatalf("answered %v", err)
	}
}
