// Package sshtest puts SSH in front of an engine, on a port of this machine, as net/http/httptest
// puts HTTP in front of a handler. So the code under test makes its own connection, to an address,
// by a key or a password.
//
// Only the subsystem sftp exists: no shell, no commands, no forwarding. Each channel of each
// connection is a session of the engine.
package sshtest

import (
	"crypto/ed25519"
	"crypto/rand"
	"crypto/subtle"
	"encoding/hex"
	"errors"
	"fmt"
	"net"
	"path"
	"sync"
	"time"

	"golang.org/x/crypto/ssh"
	"golang.org/x/crypto/ssh/knownhosts"
	"lucernetick"
)

const (
	// patience is how long a client may take to log in.
	patience = 30 * time.Second
	// attempts is how many failed logins a connection may make.
	attempts = 6
	// pause is how long to wait after a failed accept.
	pause = 10 * time.Millisecond
)

// A Server is an SSH server on a port of this machine. Its sessions are those of an engine.
type Server struct {
	// Addr is the host and port for ssh.Dial, once the server has started.
	Addr string
	// Listener accepts the connections, on a free port of the loopback interface.
	Listener net.Listener

	// User may log in, by a key or by a password. Both are random for each server.
	User     string
	Password string
	// UID and GID are those of User, see User.
	UID, GID uint32
	// Users are further users, and PublicKeys further keys, by which every user may log in. A test
	// may change them, and the next fields, before the server starts.
	Users      []User
	PublicKeys []ssh.PublicKey
	// Races are those whose clients connect by SSH: the users, in their order. Each user opens one
	// session, without faults. Make the server with the engine of the races.
	Races *lucernetick.Races
	// HostSigner has the server's private key, a new one for each server. ssh.ParsePrivateKey reads
	// one from a file.
	HostSigner ssh.Signer
	// Config has the authentication callbacks.
	Config *ssh.ServerConfig
	// Clock returns the timestamp of each call.
	Clock lucernetick.Clock

	engine *lucernetick.Engine
	client ed25519.PrivateKey

	lock     sync.Mutex
	lines    map[net.Conn]bool // the open connections
	conns    map[conn]bool     // those of the sessions
	racers   map[string]conn   // of the users who have no session yet
	sessions uint64
	faults   func(session uint64) lucernetick.Faults
	fault    error // why the server stopped
	closed   bool
	serving  sync.WaitGroup
}

// A User may log in by a password, or by a key.
type User struct {
	Name, Password string
	// Root is the directory of the tree that the user sees as "/"; "" is the whole tree. The server
	// makes it if it is missing, and gives it to the user.
	Root string
	// UID and GID are the user and its group. Unless UID is 0, permissions are enforced for them,
	// see Engine.EnforcePermissions.
	UID, GID uint32
}

// NewServer starts a server for the engine, with the system's clock. Close ends it. Like
// net/http/httptest it panics if no port is available.
func NewServer(engine *lucernetick.Engine) *Server {
	server := NewUnstartedServer(engine)
	server.Start()
	return server
}

// NewUnstartedServer makes a server without starting it, so that a test can change its clock or who
// may log in.
func NewUnstartedServer(engine *lucernetick.Engine) *Server {
	listener, err := net.Listen("tcp", "127.0.0.1:0")
	if err != nil {
		panic(fmt.Sprintf("sshtest: no port can be had: %v", err))
	}
	server := &Server{
		Listener:   listener,
		User:       "user",
		Password:   newPassword(),
		HostSigner: signerOf(newKey()),
		Clock:      time.Now,
		engine:     engine,
		client:     newKey(),
		lines:      map[net.Conn]bool{},
		conns:      map[conn]bool{},
		racers:     map[string]conn{},
		faults:     func(uint64) lucernetick.Faults { return lucernetick.Faults{} },
	}
	server.Config = &ssh.ServerConfig{
		PasswordCallback:            server.checkPassword,
		PublicKeyCallback:           server.checkKey,
		KeyboardInteractiveCallback: server.checkAnswers,
		MaxAuthTries:                attempts,
	}
	return server
}

// Start starts the server. It panics if two users have the same name, a root cannot be made, or
// Races have other clients.
func (server *Server) Start() {
	if server.Addr != "" {
		panic("sshtest: the server was started before")
	}
	if server.engine == nil {
		panic("sshtest: the engine must not be nil")
	}
	if err := server.checkNames(); err != nil {
		panic(err)
	}
	server.Config.AddHostKey(server.HostSigner)
	for _, user := range server.Users {
		if err := server.makeRoot(user); err != nil {
			panic(err)
		}
	}
	if err := server.connectRaces(); err != nil {
		panic(err)
	}
	server.Addr = server.Listener.Addr().String()
	server.serving.Add(1)
	go func() {
		defer server.serving.Done()
		server.run(server.accept)
	}()
}

// SetFaults sets the faults of all sessions that open from now on. It panics if a number is out of
// range.
func (server *Server) SetFaults(faults lucernetick.Faults) {
	if err := faults.Check(); err != nil {
		panic(err)
	}
	server.SetFaultsOf(func(uint64) lucernetick.Faults { return faults })
}

// SetFaultsOf sets a function that returns the faults of each session that opens from now on. The
// first session of a server is 1, the next one 2 and so on.
func (server *Server) SetFaultsOf(faults func(session uint64) lucernetick.Faults) {
	server.lock.Lock()
	defer server.lock.Unlock()
	server.faults = faults
}

// ClientConfig returns a configuration for ssh.Dial that logs in with the client key. It accepts
// only the server's host key.
func (server *Server) ClientConfig() *ssh.ClientConfig {
	return &ssh.ClientConfig{
		User:            server.User,
		Auth:            []ssh.AuthMethod{ssh.PublicKeys(signerOf(server.client))},
		HostKeyCallback: ssh.FixedHostKey(server.HostKey()),
	}
}

// HostKey returns the host key of the server.
func (server *Server) HostKey() ssh.PublicKey { return server.HostSigner.PublicKey() }

// KnownHosts returns a line of a known_hosts file with the host key.
func (server *Server) KnownHosts() string {
	return knownhosts.Line([]string{server.Addr}, server.HostKey()) + "\n"
}

// ClientKey returns the client's private key in the format of an OpenSSH key file, which must not
// be readable by others. ssh.ParsePrivateKey parses it.
func (server *Server) ClientKey() []byte { return fileOf(server.client) }

// Close ends all connections, and waits for their goroutines. The engine stays open. It returns the
// error of Err.
func (server *Server) Close() error {
	server.stop(nil)
	server.serving.Wait()
	return server.Err()
}

// Err returns why the server has stopped, or nil: a clock, a callback or a rule that panics, or
// ends the goroutine, stops the server, and so does an error of the engine. All connections are
// closed, and the error is a StoppedError.
func (server *Server) Err() error {
	server.lock.Lock()
	defer server.lock.Unlock()
	return server.fault
}

// stop closes the listener and all connections. Only the first reason counts.
func (server *Server) stop(why error) {
	server.lock.Lock()
	server.closed = true
	if server.fault == nil {
		server.fault = why
	}
	// Both may be closed already.
	server.Listener.Close()
	for line := range server.lines {
		line.Close()
	}
	var conns []conn
	for conn := range server.conns {
		conns = append(conns, conn)
	}
	server.lock.Unlock()
	for _, conn := range conns {
		conn.Drop()
	}
}

// run runs a part of the server. If it ends early, the server stops.
func (server *Server) run(part func()) {
	isDone := false
	defer func() {
		if !isDone {
			server.stop(lucernetick.NewStoppedError(recover()))
		}
	}()
	part()
	isDone = true
}

var errRefused = errors.New("sshtest: who this is may not log in")

func (server *Server) checkPassword(
	client ssh.ConnMetadata, shown []byte,
) (*ssh.Permissions, error) {
	user := server.find(client.User())
	return nil, check(user != nil && isEqual(shown, []byte(user.Password)))
}

// checkAnswers asks for the password.
func (server *Server) checkAnswers(
	client ssh.ConnMetadata, ask ssh.KeyboardInteractiveChallenge,
) (*ssh.Permissions, error) {
	answers, err := ask("", "", []string{"Password:"}, []bool{false})
	if err != nil || len(answers) != 1 {
		return nil, errRefused
	}
	return server.checkPassword(client, []byte(answers[0]))
}

func (server *Server) checkKey(
	client ssh.ConnMetadata, shown ssh.PublicKey,
) (*ssh.Permissions, error) {
	isKnown := false
	keys := []ssh.PublicKey{signerOf(server.client).PublicKey()}
	for _, key := range append(keys, server.PublicKeys...) {
		isKnown = isKnown || isEqual(shown.Marshal(), key.Marshal())
	}
	return nil, check(isKnown && server.find(client.User()) != nil)
}

func isEqual(shown, wanted []byte) bool { return subtle.ConstantTimeCompare(shown, wanted) == 1 }

func check(isGood bool) error {
	if !isGood {
		return errRefused
	}
	return nil
}

// users returns all users.
func (server *Server) users() []User {
	first := User{Name: server.User, Password: server.Password, UID: server.UID, GID: server.GID}
	return append([]User{first}, server.Users...)
}

// checkNames checks that each user has a name of its own.
func (server *Server) checkNames() error {
	seen := map[string]bool{"": true}
	for _, user := range server.users() {
		if seen[user.Name] {
			return fmt.Errorf("sshtest: users must have different names, not %q", user.Name)
		}
		seen[user.Name] = true
	}
	return nil
}

// find returns the user of this name, or nil.
func (server *Server) find(name string) *User {
	for _, user := range server.users() {
		if user.Name == name {
			user := user
			return &user
		}
	}
	return nil
}

// makeRoot makes the directory that a user sees as "/", if it is missing.
func (server *Server) makeRoot(user User) error {
	root := path.Join("/", user.Root)
	if root == "/" {
		return nil
	}
	tree, err := server.engine.Snapshot()
	if _, there := tree[root]; there || err != nil {
		return err
	}
	if err := server.engine.WriteFiles(map[string][]byte{root: nil}, server.Clock()); err != nil {
		return err
	}
	const owner = 2
	given := lucernetick.Attributes{Given: owner, UID: user.UID, GID: user.GID}
	return server.engine.SetAttributes(root, given, server.Clock())
}

// accept accepts connections until the server is closed.
func (server *Server) accept() {
	for {
		line, err := server.Listener.Accept()
		switch {
		case errors.Is(err, net.ErrClosed):
			return
		case err != nil:
			time.Sleep(pause)
		case server.begin(line):
			go func() {
				defer server.end(line)
				server.run(func() { server.serve(line) })
			}()
		default:
			line.Close()
		}
	}
}

// begin registers a connection, unless the server was closed.
func (server *Server) begin(line net.Conn) bool {
	server.lock.Lock()
	defer server.lock.Unlock()
	if server.closed {
		return false
	}
	server.lines[line] = true
	server.serving.Add(1)
	return true
}

func (server *Server) end(line net.Conn) {
	line.Close()
	server.lock.Lock()
	delete(server.lines, line)
	server.lock.Unlock()
	server.serving.Done()
}

// serve serves a connection to its end.
func (server *Server) serve(line net.Conn) {
	line.SetDeadline(time.Now().Add(patience))
	client, channels, requests, err := ssh.NewServerConn(line, server.Config)
	if err != nil {
		return
	}
	line.SetDeadline(time.Time{})
	// This rejects all forwarding.
	go ssh.DiscardRequests(requests)
	var sessions sync.WaitGroup
	for asked := range channels {
		if asked.ChannelType() != "session" {
			asked.Reject(ssh.UnknownChannelType, "there are sessions alone")
			continue
		}
		channel, requests, err := asked.Accept()
		if err != nil {
			break
		}
		sessions.Add(1)
		go func() {
			defer sessions.Done()
			server.run(func() { server.session(line, channel, requests, client.User()) })
		}()
	}
	sessions.Wait()
}

func newPassword() string {
	drawn := make([]byte, 16)
	if _, err := rand.Read(drawn); err != nil {
		panic(fmt.Sprintf("sshtest: nothing can be drawn: %v", err))
	}
	return hex.EncodeToString(drawn)
}
