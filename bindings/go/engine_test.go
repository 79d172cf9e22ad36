package lucernetick

import (
	"bytes"
	"encoding/binary"
	"io"
	"os"
	"testing"
	"time"
)

// INIT, and MKDIR of /a under the id 7.
const makes = "\x00\x00\x00\x05\x01\x00\x00\x00\x03\x00\x00\x00\x0f\x0e\x00\x00\x00\x07" +
	"\x00\x00\x00\x02/a\x00\x00\x00\x00"

// INIT, and STAT of /a under the id 8.
const looks = "\x00\x00\x00\x05\x01\x00\x00\x00\x03\x00\x00\x00\x0b\x11\x00\x00\x00\x08" +
	"\x00\x00\x00\x02/a"

// version is the length of VERSION's packet.
const version = 153

// The output of the schedule's second session after VERSION: the attributes of /a, with size 0, uid
// and gid 0, mode 0o755, and the timestamp 100.
const looked = "\x00\x00\x00\x25\x69\x00\x00\x00\x08\x00\x00\x00\x0f" +
	"\x00\x00\x00\x00\x00\x00\x00\x00\x00\x00\x00\x00\x00\x00\x00\x00" +
	"\x00\x00\x41\xed\x00\x00\x00\x64\x00\x00\x00\x64"

// open opens a session and feeds it.
func open(t *testing.T, engine *Engine, data string) *Session {
	t.Helper()
	session, err := engine.Open()
	must(t, err)
	must(t, session.Feed([]byte(data)))
	return session
}

// replay returns what the turns of a schedule did, and the output of its two sessions. The second
// session asks for /a before the first one has made it.
func replay(t *testing.T) ([]Turn, [2]string) {
	t.Helper()
	engine := newEngine(t)
	sessions := []*Session{open(t, engine, makes), open(t, engine, looks)}
	var did []Turn
	for _, number := range []int{1, 2, 2, 1, 1, 2, 1, 2, 2, 2, 1} {
		turn, err := sessions[number-1].Turn(at(100))
		must(t, err)
		did = append(did, turn)
	}
	var sent [2]string
	for at, session := range sessions {
		output, err := session.Output()
		must(t, err)
		sent[at] = string(output)
	}
	return did, sent
}

func TestAScheduleGivesTheSameBytesEachTime(t *testing.T) {
	did, sent := replay(t)
	again, sentAgain := replay(t)
	same(t, again, did)
	same(t, sentAgain, sent)
	wanted := []Turn{Wrote, Wrote, Begun, Begun, Moved, Blocked, Decided, Moved, Decided, Wrote, Wrote}
	same(t, did, wanted)
	same(t, sent[1][version:], looked)
}

// begun returns a session with a rename in progress, with the id 7.
func begun(t *testing.T, engine *Engine, old, new string) *Session {
	t.Helper()
	rename := packet(18, number(7), text([]byte(old)), text([]byte(new)))
	session := open(t, engine, looks[:9]+string(rename))
	for _, wanted := range []Turn{Wrote, Begun} {
		turn, err := session.Turn(at(100))
		must(t, err)
		same(t, turn, wanted)
	}
	must(t, session.Sent(version))
	return session
}

// written returns what a turn of the session writes.
func written(t *testing.T, session *Session) string {
	t.Helper()
	turn, err := session.Turn(at(100))
	must(t, err)
	same(t, turn, Wrote)
	output, err := session.Output()
	must(t, err)
	return string(output)
}

// In rounds the first rename is ahead. It is decided after five rounds, in the last of which the
// other one acquires the root. That takes three more, since its target is gone.
func TestCrossingRenamesInRounds(t *testing.T) {
	engine := newEngine(t)
	must(t, engine.WriteFiles(map[string][]byte{"/a/x": nil, "/b/y": nil}, at(0)))
	first, second := begun(t, engine, "/a/x", "/b/y/x"), begun(t, engine, "/b/y", "/a/x/y")
	for _, wanted := range []uint64{8, 0} {
		rounds, err := engine.RunAll()
		must(t, err)
		same(t, rounds, wanted)
	}
	ok := packet(101, number(7), number(0), text([]byte("Success")), number(0))
	absent := packet(101, number(7), number(2), text([]byte("No such file")), number(0))
	same(t, written(t, second), string(absent))
	same(t, written(t, first), string(ok))
	found, err := engine.Snapshot()
	must(t, err)
	_, there := found["/b/y/x"]
	same(t, []interface{}{len(found), there}, []interface{}{5, true})
}

func TestNoRoundsWithoutACallUnderWay(t *testing.T) {
	engine := newEngine(t)
	open(t, engine, looks)
	rounds, err := engine.RunAll()
	must(t, err)
	same(t, rounds, uint64(0))
	engine.Close()
	_, err = engine.RunAll()
	same(t, err, ErrBadPointer)
}

func TestOutputWaitsUntilItWasSent(t *testing.T) {
	session := open(t, newEngine(t), makes)
	_, err := session.Settle(at(100), 1)
	must(t, err)
	waiting, err := session.Output()
	must(t, err)
	same(t, len(waiting), version)
	must(t, session.Sent(version-2))
	same(t, session.Sent(3), ErrNotSent)
	rest, err := session.Output()
	must(t, err)
	same(t, rest, waiting[version-2:])
}

func TestHowSessionsEnd(t *testing.T) {
	engine := newEngine(t)
	for data, wanted := range map[string]Turn{
		looks[9:]:              NotInit,
		makes[:8] + "\x02":     OldVersion,
		makes[:9] + makes[:9]:  SecondInit,
		"\x00\x00\x00\x00":     ZeroLength,
		"\x00\x04\x00\x01":     TooLong,
		"\x00\x00\x00\x01\x01": NoID,
	} {
		session := open(t, engine, data)
		turn, err := session.Settle(at(0), 1000)
		must(t, err)
		same(t, turn, wanted)
		same(t, turn.HasEnded(), true)
		same(t, session.Feed([]byte("more")), ErrHasEnded)
	}
}

func TestRefusals(t *testing.T) {
	engine := newEngine(t)
	_, err := (&Session{engine, 1}).Turn(at(0))
	same(t, err, ErrNoSuchSession)
	for count := 0; count < 256; count++ {
		open(t, engine, "")
	}
	_, err = engine.Open()
	same(t, err, ErrTooManySessions)
	engine.Close()
	engine.Close()
	_, err = engine.Open()
	same(t, err, ErrBadPointer)
	_, err = engine.Snapshot()
	same(t, err, ErrBadPointer)
}

// setSize sets a file's size by a SETSTAT.
func setSize(t *testing.T, engine *Engine, path string, size uint64) {
	t.Helper()
	set(t, engine, path, append(number(1), binary.BigEndian.AppendUint64(nil, size)...))
}

// Holes of a sparse file are reported and not read.
func TestASparseFile(t *testing.T) {
	engine, err := FromFiles(map[string][]byte{"/d/f": []byte("one")}, at(0))
	must(t, err)
	t.Cleanup(func() { engine.Close() })
	setSize(t, engine, "/d/f", 1<<40)
	client := connect(t, engine, time.Now)
	file, err := client.OpenFile("/d/f", os.O_WRONLY)
	must(t, err)
	_, err = file.WriteAt([]byte("two"), 1<<39+5)
	must(t, err)
	must(t, file.Close())
	found := snapshot(t, engine)["/d/f"]
	same(t, found.Size, uint64(1)<<40)
	front, middle := make([]byte, unit), make([]byte, unit)
	copy(front, "one")
	copy(middle[5:], "two")
	same(t, found.Pieces, []Piece{{0, front}, {1 << 39, middle}})
	room := make([]byte, 5)
	count, err := found.ReadAt(room, 1<<39+4)
	must(t, err)
	same(t, string(room[:count]), "\x00two\x00")
	count, err = found.ReadAt(room, 1<<40-2)
	same(t, err, io.EOF)
	same(t, string(room[:count]), "\x00\x00")
}

// Written zeros are like a hole.
func TestAGapIsZeros(t *testing.T) {
	long := make([]byte, 100_000)
	long[0] = '1'
	engine, err := FromFiles(map[string][]byte{"/f": long, "/g": []byte("1")}, at(0))
	must(t, err)
	t.Cleanup(func() { engine.Close() })
	setSize(t, engine, "/g", 100_000)
	found := snapshot(t, engine)
	same(t, found["/f"].Contents(), long)
	same(t, found["/g"].Pieces, found["/f"].Pieces)
}

// A snapshot opens no session, so it works when all 256 are open. It records no call, and does not
// change.
func TestASnapshotAsksForNothing(t *testing.T) {
	engine, err := FromFiles(map[string][]byte{"/f": bytes.Repeat([]byte("1"), 40_000)}, at(0))
	must(t, err)
	t.Cleanup(func() { engine.Close() })
	before, err := engine.Calls()
	must(t, err)
	number := open(t, engine, "").Number()
	found := snapshot(t, engine)
	after, err := engine.Calls()
	must(t, err)
	same(t, after, before)
	for count := uint64(1); count <= 255; count++ {
		same(t, open(t, engine, "").Number(), number+count)
	}
	same(t, snapshot(t, engine), found)
	engine.Close()
	same(t, found["/f"].Contents(), bytes.Repeat([]byte("1"), 40_000))
}

// A snapshot has the effects of earlier calls, also while a call is in progress.
func TestASnapshotWhileACallStandsHalfWay(t *testing.T) {
	engine := newEngine(t)
	held := open(t, engine, makes)
	hold(t, held)
	same(t, len(snapshot(t, engine)), 1)
	turn, err := held.Turn(at(100))
	must(t, err)
	same(t, turn, Decided)
	same(t, snapshot(t, engine)["/a"].Mode, uint32(0o40755))
}

func TestWhoWantsBytes(t *testing.T) {
	engine := newEngine(t)
	session := open(t, engine, "")
	wants := func(wanted bool) {
		t.Helper()
		got, err := session.WantsBytes()
		must(t, err)
		same(t, got, wanted)
	}
	wants(true)
	must(t, session.Feed([]byte(makes[:5])))
	wants(true)
	must(t, session.Feed([]byte(makes[5:])))
	for _, wanted := range []Turn{Wrote, Begun, Moved, Decided, Wrote} {
		wants(false)
		turn, err := session.Turn(at(100))
		must(t, err)
		same(t, turn, wanted)
	}
	wants(true)
	must(t, session.Close())
	wants(false)
	session = &Session{engine, 2}
	wants(false)
}

func TestVersionAndTexts(t *testing.T) {
	same(t, Version(), "0.3.0")
	same(t, ErrTooManySessions.Error(), "lucernetick: 256 sessions are open")
	same(t, Closed.String(), "ended: the session was closed")
}

// Each of these runs up to one reply, and the last one does nothing.
func TestSettleByReplies(t *testing.T) {
	session := open(t, newEngine(t), makes)
	for _, wanted := range []Turn{Spent, Spent, Idle} {
		turn, err := session.Settle(at(100), 1)
		must(t, err)
		same(t, turn, wanted)
	}
}
