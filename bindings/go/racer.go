//go:build cgo && linux && amd64

package lucernetick

import (
	"fmt"
	"io"
	"net"
	"os"
	"time"
)

// A racer is the connection of a client in a race. The lock of the race protects it.
type racer struct {
	races   *Races
	session *Session
	number  int
	packets unanswered

	goroutine uint64 // which has connected it
	closed    bool   // by its client
	ended     bool   // its session has no more turns
	slow      bool   // it was skipped
	fault     error  // the error of the turn that ended its session

	readUntil, writeUntil time.Time
	alarm                 *time.Timer // for readUntil
}

var _ net.Conn = (*racer)(nil)

// waits reports whether the client waits for a reply.
func (one *racer) waits() bool { return !one.ended && one.packets.count > 0 }

// turn runs one turn. A client that has closed its connection leaves after its last reply.
func (one *racer) turn(moment time.Time) Turn {
	turn, err := one.session.Turn(moment)
	one.fault = err
	one.ended = err != nil || turn.HasEnded()
	if turn == Wrote {
		one.packets.count--
	}
	one.leave()
	return turn
}

// leave ends the session of a client that has closed its connection and waits for no reply.
func (one *racer) leave() {
	if one.closed && !one.ended && !one.waits() {
		one.fault = one.session.Close()
		one.ended = true
	}
}

// Write feeds the session.
func (one *racer) Write(data []byte) (int, error) {
	one.races.lock.Lock()
	defer one.races.lock.Unlock()
	switch {
	case one.closed:
		return 0, net.ErrClosed
	case one.races.fault != nil:
		return 0, one.races.fault
	case one.ended:
		return 0, io.ErrClosedPipe
	case hasPassed(one.writeUntil):
		return 0, os.ErrDeadlineExceeded
	}
	if err := one.session.Feed(data); err != nil {
		return 0, err
	}
	one.packets.fed(data)
	one.slow = false
	one.races.advance()
	return len(data), nil
}

// Read waits for output, and returns it. After the session's last reply it returns io.EOF.
func (one *racer) Read(room []byte) (int, error) {
	one.races.lock.Lock()
	defer one.races.lock.Unlock()
	for {
		switch {
		case one.closed:
			return 0, net.ErrClosed
		case hasPassed(one.readUntil):
			return 0, os.ErrDeadlineExceeded
		case len(room) == 0:
			return 0, nil
		}
		count, err := one.take(room)
		switch {
		case count > 0 || err != nil:
			return count, err
		case one.fault != nil:
			return 0, one.fault
		case one.ended:
			return 0, io.EOF
		case one.races.lock.isCalling():
			return 0, errWaits
		case one.isAlone():
			return 0, ErrOneGoroutine
		}
		one.races.moved.Wait()
	}
}

// isAlone reports whether the goroutine that has connected this client, and should connect further
// ones, waits for a reply.
func (one *racer) isAlone() bool {
	races := one.races
	return !races.closed && len(races.racers) < races.awaited && one.readUntil.IsZero() &&
		one.goroutine == goroutine()
}

func (one *racer) take(room []byte) (int, error) {
	engine := one.session.engine
	engine.lock.Lock()
	defer engine.lock.Unlock()
	return one.session.take(room)
}

// Close ends the client's requests. Those already sent take effect.
func (one *racer) Close() error {
	one.races.lock.Lock()
	defer one.races.lock.Unlock()
	if one.closed {
		return net.ErrClosed
	}
	one.closed = true
	one.leave()
	one.races.advance()
	return nil
}

func (one *racer) SetDeadline(until time.Time) error {
	one.SetWriteDeadline(until)
	return one.SetReadDeadline(until)
}

func (one *racer) SetReadDeadline(until time.Time) error {
	races := one.races
	races.lock.Lock()
	defer races.lock.Unlock()
	one.readUntil = until
	if one.alarm != nil {
		one.alarm.Stop()
	}
	if !until.IsZero() {
		one.alarm = time.AfterFunc(time.Until(until), func() {
			races.lock.Lock()
			defer races.lock.Unlock()
			races.moved.Broadcast()
		})
	}
	return nil
}

func (one *racer) SetWriteDeadline(until time.Time) error {
	one.races.lock.Lock()
	defer one.races.lock.Unlock()
	one.writeUntil = until
	return nil
}

func hasPassed(until time.Time) bool { return !until.IsZero() && !time.Now().Before(until) }

func (one *racer) LocalAddr() net.Addr { return raceAddr(fmt.Sprintf("client %d", one.number)) }

func (one *racer) RemoteAddr() net.Addr { return raceAddr("races") }

// A raceAddr names one end of a connection without an address.
type raceAddr string

func (name raceAddr) Network() string { return "lucernetick" }

func (name raceAddr) String() string { return string(name) }
