package lucernetick

import (
	"errors"
	"os"
	"strings"
	"testing"
	"time"
)

const limit = 60 * time.Second

// later runs an action a little later, and reports when it is done.
func later(action func() error) <-chan error {
	done := make(chan error, 1)
	time.AfterFunc(100*time.Millisecond, func() { done <- action() })
	return done
}

func TestCallbacksBeforeAndAfter(t *testing.T) {
	engine := NewT(t)
	var before []Request
	var after []Call
	engine.OnCall(func(request Request) { before = append(before, request) },
		func(call Call) { after = append(after, call) })
	client := connect(t, engine.Engine, time.Now)
	must(t, client.Mkdir("/d"))
	write(t, client, "/d/../d/f", []byte("12345"))
	must(t, client.Rename("/d", "/e"))
	same(t, after, engine.Calls())
	var asked [][3]string
	for _, one := range before {
		same(t, one.Session, uint64(1))
		asked = append(asked, [3]string{one.Kind.String(), one.Path, one.NewPath})
	}
	same(t, asked, [][3]string{
		{"mkdir", "/d", ""}, {"open", "/d/f", ""}, {"write", "/d/f", ""}, {"close", "/d/f", ""},
		{"rename", "/d", "/e"},
	})
	opened, wrote := before[1], before[2]
	same(t, opened.Flags&OpenFlagWrite != 0, true)
	same(t, string(wrote.Data), "12345")
	same(t, []uint64{wrote.Handle, wrote.Offset, wrote.Length}, []uint64{2, 0, 5})
}

// A callback before a call sees the tree before it, and may have the request rejected.
func TestACallbackMayUseTheEngine(t *testing.T) {
	engine := NewT(t)
	var seen []int
	hook := engine.OnCall(func(request Request) {
		seen = append(seen, len(engine.Snapshot()))
		if request.Path == "/b" {
			engine.Refuse(Rule{Kind: KindMkdir})
		}
		if _, err := engine.Engine.WaitFor("/none", time.Hour); err != errWaits {
			t.Error(err)
		}
	}, nil)
	client := connect(t, engine.Engine, time.Now)
	must(t, client.Mkdir("/a"))
	same(t, client.Mkdir("/b") != nil, true)
	hook.End()
	hook.End()
	must(t, client.Mkdir("/c"))
	same(t, seen, []int{1, 2})
	same(t, len(engine.Snapshot()), 3)
}

// The record of a call exists with the turn in which the call takes effect.
func TestCallbacksByTurns(t *testing.T) {
	engine := NewT(t)
	var found []Kind
	engine.OnCall(nil, func(call Call) { found = append(found, call.Kind) })
	sessions := []*Session{open(t, engine.Engine, makes), open(t, engine.Engine, looks)}
	var did []int
	for _, number := range []int{1, 2, 2, 1, 1, 2, 1, 2, 2, 2, 1} {
		_, err := sessions[number-1].Turn(at(100))
		must(t, err)
		did = append(did, len(found))
	}
	same(t, did, []int{0, 0, 0, 0, 0, 0, 1, 1, 2, 2, 2})
	same(t, found, []Kind{KindMkdir, KindStat})
}

// The handle is closed, or its session ends.
func TestWaitingForAnUpload(t *testing.T) {
	engine := NewT(t)
	client := connect(t, engine.Engine, time.Now)
	file, err := client.Create("/f")
	must(t, err)
	_, err = file.Write([]byte("123"))
	must(t, err)
	_, err = engine.Engine.WaitFor("/f", 50*time.Millisecond)
	same(t, errors.Is(err, os.ErrDeadlineExceeded), true)
	same(t, strings.HasPrefix(err.Error(), "lucernetick: no complete file at /f within 50ms"), true)
	same(t, strings.Contains(err.Error(), `write handle 1 offset 0 length 3 -> Success`), true)
	closed := later(file.Close)
	same(t, string(engine.WaitFor("f", limit).Contents()), "123")
	must(t, <-closed)
	same(t, engine.WaitFor("/f", 0).Size, uint64(3))

	_, err = client.Create("/g")
	must(t, err)
	ended := later(client.Close)
	same(t, engine.WaitFor("/g", limit).Size, uint64(0))
	<-ended
}

func TestWaitingForARename(t *testing.T) {
	engine := NewT(t)
	client := connect(t, engine.Engine, time.Now)
	write(t, client, "/f.part", []byte("123"))
	renamed := later(func() error { return client.Rename("/f.part", "/f") })
	same(t, string(engine.WaitFor("/f", limit).Contents()), "123")
	must(t, <-renamed)
}

func TestWaitingForACall(t *testing.T) {
	engine := NewT(t)
	client := connect(t, engine.Engine, time.Now)
	made := later(func() error { return client.Mkdir("/a") })
	same(t, engine.WaitForCall(Filter{Kind: KindMkdir}, limit).Path, "/a")
	must(t, <-made)
	must(t, client.Mkdir("/b"))
	must(t, client.Rename("/b", "/c"))
	same(t, engine.WaitForCall(Filter{Path: "/[b-c]"}, 0).Kind, KindMkdir)
	isOK := func(call Call) bool { return call.Reply.IsOK() }
	same(t, engine.WaitForCall(Filter{Path: "/c", When: isOK}, 0).Kind, KindRename)
	_, err := engine.Engine.WaitForCall(Filter{Session: 7}, time.Millisecond)
	same(t, errors.Is(err, os.ErrDeadlineExceeded), true)
	same(t, strings.Contains(err.Error(), `rename "/b" "/c" -> Success`), true)
	for _, kind := range []Kind{1, KindLstat, KindRealpath} {
		_, err = engine.Engine.WaitForCall(Filter{Kind: kind}, 0)
		same(t, errors.Is(err, ErrBadKind), true)
	}
	same(t, len(engine.hooks), 0)
}

func TestWaitingAtAClosedEngine(t *testing.T) {
	engine := newEngine(t)
	closed := later(engine.Close)
	_, err := engine.WaitFor("/f", limit)
	same(t, err, ErrBadPointer)
	must(t, <-closed)
	_, err = engine.WaitFor("/f", 0)
	same(t, err, ErrBadPointer)
}
