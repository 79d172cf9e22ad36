package lucernetick

import (
	"errors"
	"io"
	"net"
	"runtime"
	"strings"
	"testing"
	"time"

	"github.com/pkg/sftp"
)

// A callback that panics or ends its goroutine stops a race: no client waits for ever.
func TestARaceStops(t *testing.T) {
	for says, action := range map[string]func(){
		"a panic: no time":                func() { panic("no time") },
		"a panic: EOF":                    func() { panic(io.EOF) },
		"runtime.Goexit, as by t.FailNow": runtime.Goexit,
	} {
		action := action
		races := NewRaces(1, 2)
		_, err := races.Engine().OnCall(nil, func(Call) { action() })
		must(t, err)
		done := make(chan error, 2)
		for count := 0; count < 2; count++ {
			conn, err := races.Connect()
			must(t, err)
			go func() {
				failed := errors.New("the goroutine has ended")
				defer func() { done <- failed }()
				client, err := sftp.NewClientPipe(conn, conn)
				if err == nil {
					err = client.Mkdir("/a")
				}
				failed = err
			}()
		}
		for count := 0; count < 2; count++ {
			if err := <-done; err == nil {
				t.Error("the client was not notified")
			}
		}
		_, connected := races.Connect()
		for _, err := range []error{connected, races.Err(), races.Close()} {
			var stopped *StoppedError
			if !errors.As(err, &stopped) || !strings.Contains(err.Error(), says) {
				t.Errorf("wanted %s, got %v", says, err)
			}
		}
	}
}

// A callback may use the race, but not wait for a reply.
func TestACallbackOfARace(t *testing.T) {
	races := NewRaces(1, 1)
	conn, err := races.Connect()
	must(t, err)
	var schedules []string
	_, err = races.Engine().OnCall(nil, func(Call) {
		schedules = append(schedules, races.Schedule())
		must(t, races.Err())
		if _, err := io.ReadFull(conn, make([]byte, 1000)); err != errWaits {
			t.Error(err)
		}
	})
	must(t, err)
	ask(t, conn, makes)
	must(t, conn.Close())
	same(t, schedules, []string{"1x4"})
	same(t, races.Schedule(), "1x5")
	must(t, races.Close())
}

// This goroutine would wait for itself, since it has not connected the second client.
func TestOneGoroutineForTwoClients(t *testing.T) {
	races := NewRaces(1, 2)
	defer races.Close()
	conn, err := races.Connect()
	must(t, err)
	begin := time.Now()
	_, err = sftp.NewClientPipe(conn, conn)
	if err == nil || !strings.Contains(err.Error(), ErrOneGoroutine.Error()) {
		t.Fatal(err)
	}
	if time.Since(begin) > races.Patience/2 {
		t.Fatal("it has waited")
	}
}

// Another goroutine may wait, since this one connects further clients.
func TestAClientThatWaitsForTheNextOne(t *testing.T) {
	races := NewRaces(0, 2)
	first, err := races.Connect()
	must(t, err)
	ask(t, first, looks)
	done := make(chan string)
	go func() { done <- told(t, first, version) }()
	time.Sleep(20 * time.Millisecond)
	second, err := races.Connect()
	must(t, err)
	ask(t, second, makes)
	<-done
	for _, conn := range []net.Conn{first, second} {
		must(t, conn.Close())
	}
	same(t, races.Stray(), "")
	must(t, races.Close())
}

// A connection whose clock panics leaves the engine usable.
func TestAClockThatPanics(t *testing.T) {
	engine := newEngine(t)
	conn, err := engine.Connect(func() time.Time { panic(io.EOF) })
	must(t, err)
	same(t, panicked(t, func() { conn.Write([]byte(makes)) }), "EOF")
	must(t, connect(t, engine, time.Now).Mkdir("/a"))
}
