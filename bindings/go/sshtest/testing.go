package sshtest

import (
	"testing"

	"golang.org/x/crypto/ssh"
	"lucernetick"
)

// A ServerT is a server of a test, with an engine of its own. The test fails if the server stops
// (see Server.Err): at the next call of a method of Engine, and at its end.
type ServerT struct {
	*Server
	Engine *lucernetick.EngineT
	t      testing.TB
}

// NewServerT starts a server for a test, which closes it at its end. The functions may change the
// server before it starts, for example its Clock.
func NewServerT(t testing.TB, configure ...func(*Server)) *ServerT {
	t.Helper()
	engine := lucernetick.NewT(t)
	server := NewUnstartedServer(engine.Engine)
	for _, change := range configure {
		change(server)
	}
	server.Start()
	engine.Check(server.Err)
	t.Cleanup(func() {
		if err := server.Close(); err != nil {
			t.Error(err)
		}
	})
	return &ServerT{server, engine, t}
}

// Dial returns a connection that is logged in with the client key. It is closed at the end of the
// test.
func (server *ServerT) Dial() *ssh.Client {
	server.t.Helper()
	client, err := ssh.Dial("tcp", server.Addr, server.ClientConfig())
	if err != nil {
		server.t.Fatal(err)
	}
	server.t.Cleanup(func() { client.Close() })
	return client
}
