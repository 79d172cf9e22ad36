//go:build cgo && linux && amd64

package lucernetick

import (
	"io"
	"math"
	"time"
)

// most is how many replies are written before another session may use the engine, and mostLimited
// how many if their bytes are limited.
const (
	most        = 64
	mostLimited = 8
)

// A Conn is a client's connection to a session: write requests to it, and read replies from it. One
// goroutine may read while another one writes.
//
// However it ends, a request takes effect if it was received completely before that.
type Conn struct {
	session *Session
	clock   Clock
	line    stream // protected by the engine's lock, as the next fields
	limit   int    // of replies that are not read; 0 for none
	closed  bool
	ended   bool
}

var _ io.ReadWriteCloser = (*Conn)(nil)

// Connect opens a session for a client. The clock returns the timestamps of its calls: time.Now, or
// Now of a VirtualTime.
func (engine *Engine) Connect(clock Clock) (*Conn, error) {
	return engine.ConnectWith(clock, Faults{})
}

// ConnectWith is like Connect, for a connection with faults.
func (engine *Engine) ConnectWith(clock Clock, faults Faults) (*Conn, error) {
	return engine.ConnectAt("/", clock, faults)
}

// ConnectAt is like ConnectWith, for a client that sees the directory root of the tree as "/".
func (engine *Engine) ConnectAt(root string, clock Clock, faults Faults) (*Conn, error) {
	if err := faults.Check(); err != nil {
		return nil, err
	}
	if clock == nil {
		clock = time.Now
	}
	session, err := engine.OpenAt(root)
	if err != nil {
		return nil, err
	}
	return &Conn{session: session, clock: clock, line: stream{faults: faults}}, nil
}

// Session returns the session of the connection, for the Session of a Rule.
func (conn *Conn) Session() *Session { return conn.session }

// IsCut reports whether CutAfter has dropped the connection.
func (conn *Conn) IsCut() bool {
	conn.session.engine.lock.Lock()
	defer conn.session.engine.lock.Unlock()
	return conn.line.isCut
}

// LimitUnread limits the bytes of replies that wait to be read: while there are more, no further
// request is read, and Write waits. So another goroutine must read. One reply may exceed the limit.
func (conn *Conn) LimitUnread(bytes int) error {
	if err := checkRange("bytes", int64(bytes), 1, math.MaxInt64); err != nil {
		return err
	}
	conn.session.engine.lock.Lock()
	defer conn.session.engine.lock.Unlock()
	conn.limit = bytes
	return nil
}

// Write feeds the session, and runs all turns that it can.
func (conn *Conn) Write(data []byte) (int, error) {
	engine := conn.session.engine
	engine.lock.Lock()
	defer engine.lock.Unlock()
	if conn.closed || conn.ended || conn.line.isCut {
		return 0, io.ErrClosedPipe
	}
	arrived := data
	if conn.line.isFaulty() {
		arrived = conn.line.receive(data)
	}
	if err := conn.session.feed(arrived); err != nil {
		return 0, err
	}
	if err := conn.turns(); err != nil {
		return 0, err
	}
	engine.moved.Broadcast()
	for !conn.closed && !conn.ended && conn.isFull() {
		if engine.lock.isCalling() {
			return len(data), errWaits
		}
		engine.moved.Wait()
	}
	for !conn.closed && !conn.ended && time.Now().Before(conn.line.heard) {
		if engine.lock.isCalling() {
			return len(data), errWaits
		}
		engine.waitUntil(conn.line.heard)
	}
	return len(data), nil
}

// Read waits for output, and returns it. After the session's last reply it returns io.EOF.
func (conn *Conn) Read(room []byte) (int, error) {
	engine := conn.session.engine
	engine.lock.Lock()
	defer engine.lock.Unlock()
	if len(room) == 0 {
		return 0, nil
	}
	for {
		if err := conn.turns(); err != nil {
			return 0, err
		}
		count, err := conn.take(room)
		if conn.limit > 0 {
			engine.moved.Broadcast()
		}
		isOver := conn.closed || conn.ended
		switch late := conn.line.late; {
		case count > 0 || err != nil:
			return count, err
		case isOver && len(late) == 0:
			return 0, io.EOF
		case engine.lock.isCalling():
			return 0, errWaits
		case len(late) > 0:
			engine.waitUntil(late[0].due)
		default:
			engine.moved.Wait()
		}
	}
}

// Close ends the session. If another session blocks its requests, a later Read completes them.
func (conn *Conn) Close() error {
	engine := conn.session.engine
	engine.lock.Lock()
	defer engine.lock.Unlock()
	return conn.close()
}

// Drop ends the session as Close does, but does not deliver late replies.
func (conn *Conn) Drop() error {
	engine := conn.session.engine
	engine.lock.Lock()
	defer engine.lock.Unlock()
	conn.line.drop()
	conn.closed = true
	engine.moved.Broadcast()
	return conn.leave()
}

// The methods below are called with the engine's lock held.

func (conn *Conn) close() error {
	if conn.closed {
		return nil
	}
	conn.closed = true
	return firstOf(conn.leave(), conn.turns())
}

// leave ends the session, unless requests that were received wait for another session.
func (conn *Conn) leave() error {
	in := conn.session.engine.inputs[conn.session.Number()]
	if in != nil && in.packet() != nil {
		return nil
	}
	conn.closed = true
	if in == nil {
		return nil
	}
	return conn.session.close()
}

func (conn *Conn) take(room []byte) (int, error) {
	if conn.line.isFaulty() || len(conn.line.late) > 0 {
		return conn.line.take(room), nil
	}
	return conn.session.take(room)
}

// isFull reports whether too many bytes wait to be read.
func (conn *Conn) isFull() bool {
	if conn.limit == 0 || conn.line.isCut {
		return false
	}
	waiting, err := conn.session.look(nil)
	return err == nil && waiting+conn.line.waiting > conn.limit
}

// turns runs the session until it waits for bytes or for another session, or has ended.
func (conn *Conn) turns() error {
	for !conn.ended && !conn.isFull() {
		begins, err := conn.clock.read()
		if err != nil {
			return err
		}
		replies := uint64(most)
		if conn.limit > 0 {
			replies = mostLimited
		}
		if conn.line.isFaulty() {
			replies = 1
		}
		turn, err := conn.session.settle(begins, replies)
		if err != nil {
			return err
		}
		conn.ended = turn.HasEnded()
		if err := conn.send(); err != nil {
			return err
		}
		if turn != Spent {
			break
		}
	}
	if conn.closed || conn.line.isCut {
		return conn.leave()
	}
	return nil
}

// send moves output to a line with faults, which discards what follows a cut.
func (conn *Conn) send() error {
	for conn.line.isFaulty() {
		output, err := conn.session.output()
		if err != nil || len(output) == 0 {
			return err
		}
		if err := conn.session.sent(len(output)); err != nil {
			return err
		}
		conn.line.send(output)
	}
	return nil
}
