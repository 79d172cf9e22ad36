//go:build cgo && linux && amd64

package lucernetick

import (
	"math"
	"time"
)

// Faults are those of a connection. The numbers are of SFTP's bytes, without those of SSH. The zero
// value has none.
type Faults struct {
	// CutAfter drops the connection as soon as this many bytes were received from the client, or
	// sent to it; 0 is never. Requests received completely before that take effect, and no others.
	CutAfter int64
	// Delay is the latency of each reply. Replies to pipelined requests overlap.
	Delay time.Duration
	// Bandwidth is how many bytes per second each direction has at most; 0 is unlimited.
	Bandwidth int64
	// Chunk is how many bytes the client receives at a time at most; 0 is unlimited.
	Chunk int
}

// Check reports which number is out of range.
func (faults Faults) Check() error {
	for _, err := range []error{
		checkRange("CutAfter", faults.CutAfter, 0, math.MaxInt64),
		checkDuration("Delay", faults.Delay),
		checkRange("Bandwidth", faults.Bandwidth, 0, math.MaxInt64),
		checkRange("Chunk", int64(faults.Chunk), 0, math.MaxInt64),
	} {
		if err != nil {
			return err
		}
	}
	return nil
}

// span returns how long this many bytes take.
func (faults *Faults) span(count int) time.Duration {
	if faults.Bandwidth == 0 {
		return 0
	}
	return time.Duration(float64(count) / float64(faults.Bandwidth) * float64(time.Second))
}

// A late has bytes that the client receives later.
type late struct {
	due  time.Time
	data []byte
}

// A stream is the connection of a client with faults. The engine's lock protects it.
type stream struct {
	faults   Faults
	received int64 // from the client
	sent     int64 // to the client, or late
	isCut    bool
	late     []late
	waiting  int       // how many bytes are late
	free     time.Time // when the bandwidth allows to send further bytes
	heard    time.Time // when the bandwidth allows to receive further bytes
}

// isFaulty reports whether replies are taken one by one, and may be late.
func (line *stream) isFaulty() bool { return line.faults != Faults{} }

// left returns how many of these bytes pass before the connection is cut.
func (line *stream) left(passed int64, count int) int {
	if cut := line.faults.CutAfter; cut > 0 && int64(count) >= cut-passed {
		line.isCut = true
		return int(cut - passed)
	}
	return count
}

// receive returns the bytes that arrive from the client, and when it may send more.
func (line *stream) receive(data []byte) []byte {
	data = data[:line.left(line.received, len(data))]
	line.received += int64(len(data))
	if now := time.Now(); line.heard.Before(now) {
		line.heard = now
	}
	line.heard = line.heard.Add(line.faults.span(len(data)))
	return data
}

// send adds a reply.
func (line *stream) send(data []byte) {
	data = data[:line.left(line.sent, len(data))]
	line.sent += int64(len(data))
	due := time.Now().Add(line.faults.Delay)
	for _, part := range parts(data, line.faults) {
		if line.free.Before(due) {
			line.free = due
		}
		line.free = line.free.Add(line.faults.span(len(part)))
		line.late = append(line.late, late{line.free, part})
		line.waiting += len(part)
	}
}

// parts cuts bytes so that each part is due soon after the one before.
func parts(data []byte, faults Faults) [][]byte {
	const most = 4096
	var found [][]byte
	for len(data) > most && faults.Bandwidth > 0 {
		found = append(found, data[:most:most])
		data = data[most:]
	}
	if len(data) > 0 {
		found = append(found, data)
	}
	return found
}

// take copies bytes that are due, and returns how many.
func (line *stream) take(room []byte) int {
	if len(line.late) == 0 || time.Now().Before(line.late[0].due) {
		return 0
	}
	if most := line.faults.Chunk; most > 0 && most < len(room) {
		room = room[:most]
	}
	first := &line.late[0]
	count := copy(room, first.data)
	first.data = first.data[count:]
	line.waiting -= count
	if len(first.data) == 0 {
		line.late = line.late[1:]
	}
	return count
}

// drop drops the bytes that are late. There are no faults from now on.
func (line *stream) drop() {
	line.late, line.waiting = nil, 0
	line.faults = Faults{}
}
