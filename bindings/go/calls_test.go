package lucernetick

import (
	"errors"
	"fmt"
	"testing"
	"time"
)

// The code under test writes to a temporary name, and renames.
func TestAnUploadByATemporaryName(t *testing.T) {
	engine := newEngine(t)
	clock := &VirtualTime{}
	clock.Set(at(7))
	client := connect(t, engine, clock.Now)
	file, err := client.Create("/today.csv.part")
	must(t, err)
	_, err = file.Write([]byte("1,2,3\n"))
	must(t, err)
	must(t, file.Close())
	must(t, client.PosixRename("/today.csv.part", "/today.csv"))
	calls, err := engine.Calls()
	must(t, err)
	var wrote []Call
	for number, call := range calls {
		same(t, []uint64{call.Number, call.Session}, []uint64{uint64(number) + 1, 1})
		same(t, call.Moment, at(7))
		same(t, call.Reply.IsOK(), true)
		same(t, call.Kind == KindOpendir, false)
		if call.Kind == KindWrite {
			wrote = append(wrote, call)
		}
	}
	opened, renamed := calls[0], calls[len(calls)-1]
	same(t, opened.Kind, KindOpen)
	same(t, opened.Path, "/today.csv.part")
	same(t, opened.Reply.Handle, uint64(1))
	same(t, len(wrote), 1)
	same(t, []uint64{wrote[0].Handle, wrote[0].Offset, wrote[0].Length}, []uint64{1, 0, 6})
	same(t, string(wrote[0].Data), "1,2,3\n")
	same(t, []string{renamed.Path, renamed.NewPath}, []string{"/today.csv.part", "/today.csv"})
	same(t, renamed.Kind, KindPosixRename)
}

func TestWhatCallsAreAnswered(t *testing.T) {
	engine, err := FromFiles(map[string][]byte{"/d/a": []byte("1"), "/d/b": []byte("22")}, at(0))
	must(t, err)
	t.Cleanup(func() { engine.Close() })
	before, err := engine.Calls()
	must(t, err)
	found, err := connect(t, engine, time.Now).ReadDir("/d")
	must(t, err)
	same(t, len(found), 2)
	calls, err := engine.Calls()
	must(t, err)
	calls = calls[len(before):]
	same(t, calls[0].Kind, KindOpendir)
	same(t, calls[1].Handle, calls[0].Number)
	same(t, calls[1].Reply.Names, []string{"a", "b"})
	same(t, calls[2].Reply.Status, uint32(1))
	engine.Close()
	_, err = engine.Calls()
	same(t, err, ErrBadPointer)
}

// stat has a session serve a STAT.
func stat(t *testing.T, session *Session) {
	t.Helper()
	must(t, session.Feed(packet(packetStat, number(1), text([]byte("/")))))
	_, err := session.Settle(at(0), 1)
	must(t, err)
}

// A test that asserts that something did not happen needs all calls.
func TestAllCallsAreKept(t *testing.T) {
	engine := NewT(t)
	must(t, connect(t, engine.Engine, time.Now).Mkdir("/a"))
	session := asker(t, engine.Engine)
	for count := 0; count < 1000; count++ {
		stat(t, session)
	}
	calls := engine.Calls()
	same(t, len(calls), 1+1000)
	same(t, calls[0].Kind, KindMkdir)
	same(t, engine.Dropped(), uint64(0))
}

// The engine keeps the last calls, and says how many are gone.
func TestCallsThatWereDropped(t *testing.T) {
	for _, keep := range []uint64{1, 5, 600} {
		engine, err := NewKeeping(keep)
		must(t, err)
		defer engine.Close()
		session := asker(t, engine)
		for count := uint64(1); count <= 1500; count++ {
			stat(t, session)
			last, err := engine.LastCalls()
			must(t, err)
			kept := count
			if kept > keep {
				kept = keep
			}
			same(t, []uint64{uint64(len(last)), last[0].Number, engine.Dropped()},
				[]uint64{kept, count - kept + 1, count - kept})
			_, err = engine.Calls()
			same(t, errors.Is(err, ErrDropped), count > keep)
		}
	}
}

// WriteFiles makes more calls at once than the library retains.
func TestManyCallsAtOnceAreDropped(t *testing.T) {
	engine, err := NewKeeping(7)
	must(t, err)
	defer engine.Close()
	files := map[string][]byte{}
	for count := 0; count < 300; count++ {
		files[fmt.Sprintf("/%d", count)] = []byte("1")
	}
	must(t, engine.WriteFiles(files, at(0)))
	last, err := engine.LastCalls()
	must(t, err)
	same(t, len(last), 7)
	same(t, last[6].Number, engine.Dropped()+7)
	// Each file is opened, written and closed.
	same(t, engine.Dropped() >= 3*300-7, true)
	_, err = engine.Calls()
	same(t, errors.Is(err, ErrDropped), true)
}

func TestACallAsText(t *testing.T) {
	engine := NewT(t)
	engine.WriteFiles(map[string][]byte{"/f": []byte("123")}, at(7))
	var lines []string
	for _, call := range engine.Calls() {
		lines = append(lines, call.String())
	}
	same(t, lines[len(lines)-2:], []string{
		`session 1 call 2 at 7: write handle 1 offset 0 length 3 -> Success`,
		`session 1 call 3 at 7: close handle 1 -> Success`,
	})
}
