package lucernetick

import (
	"io"
	"strings"
	"testing"
	"time"
)

// faulty returns a connection with faults, to which all of these requests were sent.
func faulty(t *testing.T, engine *EngineT, faults Faults, requests string) *Conn {
	t.Helper()
	conn := engine.ConnectWith(func() time.Time { return at(100) }, faults)
	_, err := conn.Write([]byte(requests))
	must(t, err)
	return conn
}

// received returns all that a client receives until the end of the stream.
func received(t *testing.T, conn *Conn) string {
	t.Helper()
	data, err := io.ReadAll(conn)
	must(t, err)
	return string(data)
}

// INIT, MKDIR of /a and MKDIR of /b. The replies to the latter have 28 bytes.
var makesTwo = makes + string(mkdir(8, "/b"))

const status = 28

// The requests that are complete within the first bytes take effect, and no others. The requests
// are longer than their replies, so that the input is cut first.
func TestTheInputIsCut(t *testing.T) {
	first := looks[:9] + string(mkdir(7, "/"+strings.Repeat("a", 100)))
	both := first + string(mkdir(8, "/"+strings.Repeat("b", 100)))
	for cut := version + 2*status + 1; cut <= len(both); cut++ {
		engine := NewT(t)
		conn := faulty(t, engine, Faults{CutAfter: int64(cut)}, both)
		complete := 1
		if cut == len(both) {
			complete = 2
		}
		same(t, len(engine.Snapshot()), 1+complete)
		same(t, conn.IsCut(), true)
		_, err := conn.Write([]byte("x"))
		same(t, err, io.ErrClosedPipe)
		received(t, conn)
	}
}

// The client receives this many bytes. All requests take effect: they were received before the cut.
func TestTheOutputIsCut(t *testing.T) {
	whole := faulty(t, NewT(t), Faults{}, makesTwo)
	must(t, whole.Close())
	replies := received(t, whole)
	same(t, len(replies), version+2*status)
	for cut := len(makesTwo) + 1; cut <= len(replies); cut++ {
		engine := NewT(t)
		conn := faulty(t, engine, Faults{CutAfter: int64(cut)}, makesTwo)
		same(t, received(t, conn), replies[:cut])
		same(t, len(engine.Snapshot()), 3)
		same(t, conn.IsCut(), true)
		_, err := conn.Write(mkdir(9, "/c"))
		same(t, err, io.ErrClosedPipe)
	}
	conn := faulty(t, NewT(t), Faults{CutAfter: int64(len(replies)) + 1}, makesTwo)
	same(t, conn.IsCut(), false)
}

// Requests that wait for another session take effect after a cut, and after a Close, if somebody
// reads.
func TestBlockedRequestsOfAConnectionThatEnds(t *testing.T) {
	for _, faults := range []Faults{{}, {CutAfter: version + 1}} {
		engine := NewT(t)
		stopped := open(t, engine.Engine, makes)
		for turn := Idle; turn != Moved; {
			var err error
			turn, err = stopped.Turn(at(100))
			must(t, err)
		}
		conn := faulty(t, engine, faults, looks[:9]+string(mkdir(7, "/b"))+string(mkdir(8, "/c")))
		must(t, conn.Close())
		same(t, len(engine.Snapshot()), 1)
		_, err := engine.RunAll()
		must(t, err)
		received(t, conn)
		same(t, len(engine.Snapshot()), 4)
	}
}

// It is a latency: replies to requests sent ahead arrive together.
func TestDelay(t *testing.T) {
	const delay, count = 300 * time.Millisecond, 40
	requests := makes
	for number := uint32(0); number < count; number++ {
		id := []byte{0, 0, 0, byte(number)}
		requests += string(packet(packetStat, id, text([]byte("/a"))))
	}
	begin := time.Now()
	conn := faulty(t, NewT(t), Faults{Delay: delay}, requests)
	first := make([]byte, 1)
	_, err := conn.Read(first)
	must(t, err)
	if passed := time.Since(begin); passed < delay {
		t.Fatalf("the first reply arrived after %v", passed)
	}
	_, err = io.ReadFull(conn, make([]byte, version-1+status+count*len(looked)))
	must(t, err)
	if passed := time.Since(begin); passed > count*delay/2 {
		t.Fatalf("the last reply arrived after %v", passed)
	}
}

// A late reply does not keep a dropped connection.
func TestADelayIsDropped(t *testing.T) {
	conn := faulty(t, NewT(t), Faults{Delay: time.Hour}, makes)
	dropped := later(conn.Drop)
	same(t, received(t, conn), "")
	must(t, <-dropped)
}

func TestBandwidth(t *testing.T) {
	const rate, size = 200_000, 40_000
	engine := NewT(t)
	engine.WriteFiles(map[string][]byte{"/f": make([]byte, size)}, at(0))
	begin := time.Now()
	conn := faulty(t, engine, Faults{Bandwidth: rate},
		makes+string(packet(3, number(8), text([]byte("/f")), number(1), number(0))))
	reply := make([]byte, version+status+21)
	_, err := io.ReadFull(conn, reply)
	must(t, err)
	handle := reply[len(reply)-8:]
	for offset := uint32(0); offset < size; offset += 20_000 {
		_, err = conn.Write(packet(5, number(9), text(handle), number(0), number(offset), number(20_000)))
		must(t, err)
	}
	_, err = io.ReadFull(conn, make([]byte, size+2*13))
	must(t, err)
	if passed := time.Since(begin); passed < time.Second*size/rate {
		t.Fatalf("%d bytes arrived within %v", size, passed)
	}
	begin = time.Now()
	_, err = conn.Write(packet(200, number(1), text(make([]byte, size))))
	must(t, err)
	if passed := time.Since(begin); passed < time.Second*size/rate {
		t.Fatalf("%d bytes were sent within %v", size, passed)
	}
}

func TestChunk(t *testing.T) {
	conn := faulty(t, NewT(t), Faults{Chunk: 7}, makes)
	for left := version + status; left > 0; {
		count, err := conn.Read(make([]byte, 1000))
		must(t, err)
		if count > 7 {
			t.Fatalf("%d bytes arrived at once", count)
		}
		left -= count
	}
	write(t, connect(t, conn.session.engine, time.Now), "/f", []byte("1"))
}

func TestFaultsThatAreRejected(t *testing.T) {
	engine := newEngine(t)
	for _, one := range []struct {
		faults Faults
		says   string
	}{
		{Faults{CutAfter: -1}, "CutAfter must be from 0 to 9223372036854775807, not -1"},
		{Faults{Delay: -time.Second}, "Delay must be at least 0, not -1s"},
		{Faults{Bandwidth: -2}, "Bandwidth must be from 0 to 9223372036854775807, not -2"},
		{Faults{Chunk: -3}, "Chunk must be from 0 to 9223372036854775807, not -3"},
	} {
		_, err := engine.ConnectWith(nil, one.faults)
		same(t, err.Error(), "lucernetick: "+one.says)
	}
	same(t, open(t, engine, "").Number(), uint64(1))
}
