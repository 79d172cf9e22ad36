package sshtest

import (
	"errors"
	"fmt"
	"io"
	"net"
	"path"
	"time"

	"golang.org/x/crypto/ssh"
	"lucernetick"
)

// mostUnread is how many bytes of replies a client may leave unread.
const mostUnread = 1 << 20

// A conn is a client's connection to a session.
type conn interface {
	io.ReadWriteCloser
	Drop() error
	IsCut() bool
}

// A racer is a connection of a race.
type racer struct{ net.Conn }

func (conn racer) Drop() error { return conn.Close() }

func (conn racer) IsCut() bool { return false }

// connectRaces connects the clients of the races: each user is one of them.
func (server *Server) connectRaces() error {
	if server.Races == nil {
		return nil
	}
	for _, user := range server.users() {
		if user.Root != "" || user.UID != 0 {
			return fmt.Errorf("sshtest: %s has a Root or UID, and users of races have none", user.Name)
		}
		one, err := server.Races.Connect()
		if err != nil {
			return err
		}
		server.racers[user.Name] = racer{one}
	}
	if one, err := server.Races.Connect(); err == nil {
		one.Close()
		return errors.New("sshtest: the races have more clients than the server has users")
	}
	return nil
}

// session serves a channel of a user: it waits for a request for the subsystem, then forwards bytes
// in both directions.
func (server *Server) session(
	line net.Conn, channel ssh.Channel, requests <-chan *ssh.Request, user string,
) {
	defer channel.Close()
	conn := server.subsystem(requests, user)
	if conn == nil {
		return
	}
	defer server.leave(conn)
	go ssh.DiscardRequests(requests)
	answered := make(chan struct{})
	go func() {
		defer close(answered)
		server.run(func() { server.answer(line, channel, conn) })
	}()
	server.run(func() {
		io.Copy(writer{server, conn}, channel)
		// However this ended, the client sends no more requests.
		server.report(conn.Close())
	})
	<-answered
}

// report stops the server if the engine reports an error. Tests may close an engine first.
func (server *Server) report(err error) {
	switch {
	case err == nil, err == io.EOF, err == io.ErrClosedPipe, err == lucernetick.ErrBadPointer,
		err == net.ErrClosed:
	default:
		server.stop(&lucernetick.StoppedError{Cause: err})
	}
}

// A writer writes to a connection, and a reader reads from one. They report errors to the server,
// since io.Copy does not say which side has failed.
type writer struct {
	server *Server
	conn   conn
}

func (to writer) Write(data []byte) (int, error) {
	count, err := to.conn.Write(data)
	to.server.report(err)
	return count, err
}

type reader struct {
	server *Server
	conn   conn
}

func (from reader) Read(room []byte) (int, error) {
	count, err := from.conn.Read(room)
	from.server.report(err)
	return count, err
}

// subsystem opens a session of the engine when a request asks for the subsystem sftp. It rejects
// all other requests. It returns nil if the channel ends without one.
func (server *Server) subsystem(requests <-chan *ssh.Request, user string) conn {
	for request := range requests {
		if isSubsystem(request) {
			if conn := server.connect(user); conn != nil {
				request.Reply(true, nil)
				return conn
			}
		}
		request.Reply(false, nil)
	}
	return nil
}

// connect opens a session of a user. It returns nil if there is none, or the server has stopped.
func (server *Server) connect(name string) conn {
	user := server.find(name)
	if user == nil {
		user = &User{Name: name} // Config accepts it.
	}
	opened := server.open(*user)
	if opened == nil {
		return nil
	}
	if !server.enter(opened) {
		opened.Drop()
		return nil
	}
	return opened
}

// open opens a session with its faults, or takes the user's connection of a race.
func (server *Server) open(user User) conn {
	if server.Races != nil {
		server.lock.Lock()
		defer server.lock.Unlock()
		one := server.racers[user.Name]
		delete(server.racers, user.Name)
		return one
	}
	server.lock.Lock()
	faultsOf, number := server.faults, server.sessions+1
	server.sessions = number
	server.lock.Unlock()
	faults := faultsOf(number)
	if err := faults.Check(); err != nil {
		server.report(err)
		return nil
	}
	one, err := server.engine.ConnectAt(path.Join("/", user.Root), server.Clock, faults)
	if err != nil {
		return nil
	}
	server.report(one.LimitUnread(mostUnread))
	if user.UID != 0 {
		_, err := server.engine.EnforcePermissions(one.Session().Number(), user.UID, user.GID)
		server.report(err)
	}
	return one
}

// enter registers a connection, unless the server was closed.
func (server *Server) enter(conn conn) bool {
	server.lock.Lock()
	defer server.lock.Unlock()
	if !server.closed {
		server.conns[conn] = true
	}
	return !server.closed
}

func (server *Server) leave(conn conn) {
	server.lock.Lock()
	defer server.lock.Unlock()
	delete(server.conns, conn)
}

func isSubsystem(request *ssh.Request) bool {
	var subsystem struct{ Name string }
	return request.Type == "subsystem" && ssh.Unmarshal(request.Payload, &subsystem) == nil &&
		subsystem.Name == "sftp"
}

// answer sends the replies to the client, until the session's last one.
func (server *Server) answer(line net.Conn, channel ssh.Channel, conn conn) {
	replies := reader{server, conn}
	if _, err := io.Copy(channel, replies); err != nil {
		// The client has disconnected. Its earlier requests still take effect.
		conn.Drop()
		io.Copy(io.Discard, replies)
	}
	if conn.IsCut() {
		cut(line)
		return
	}
	status := struct{ Status uint32 }{0}
	channel.SendRequest("exit-status", false, ssh.Marshal(&status))
	// This notifies a client whose session has ended.
	channel.Close()
}

// cut ends a connection: the client receives what was sent, and then the end of the stream. A
// client that sends on is not answered by a reset, which could overtake the last bytes.
func cut(line net.Conn) {
	const longest = 5 * time.Second
	half, isHalf := line.(interface{ CloseWrite() error })
	if !isHalf || half.CloseWrite() != nil {
		line.Close()
		return
	}
	line.SetDeadline(time.Now().Add(longest))
}
