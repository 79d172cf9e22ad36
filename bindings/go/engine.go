// Package lucernetick is an in-memory SFTP server, version 3, for tests.
//
// NewT makes an engine for a test. Its Connect returns a Conn: a session for a client, for example
// for sftp.NewClientPipe of github.com/pkg/sftp.
//
// An Engine reads no clock and starts no goroutine: the caller feeds a session bytes, gives it
// turns, and sends its output. The same calls produce the same bytes each time.
package lucernetick

/*
#cgo CFLAGS: -I${SRCDIR} -I${SRCDIR}/../../include
#cgo linux,amd64 LDFLAGS: -L${SRCDIR} -L${SRCDIR}/../../out -l:liblucernetick.a
#include "lucernetick.h"
*/
import "C"

import (
	"crypto/rand"
	"encoding/hex"
	"errors"
	"fmt"
	"io"
	"math"
	"sync"
	"time"
	"unsafe"
)

// A Refusal is the error of a rejected call. The call has changed nothing and may be retried.
type Refusal int64

// The refusals.
const (
	ErrOutOfMemory     Refusal = C.LT_REFUSAL_OUT_OF_MEMORY
	ErrNoSuchSession   Refusal = C.LT_REFUSAL_NO_SUCH_SESSION
	ErrTooManySessions Refusal = C.LT_REFUSAL_TOO_MANY_SESSIONS // 256 sessions are open
	ErrHasEnded        Refusal = C.LT_REFUSAL_HAS_ENDED         // the session has ended or was closed
	ErrNumbersSpent    Refusal = C.LT_REFUSAL_NUMBERS_SPENT
	ErrNotSent         Refusal = C.LT_REFUSAL_NOT_SENT    // fewer bytes are pending
	ErrBadPointer      Refusal = C.LT_REFUSAL_BAD_POINTER // the engine was closed
	ErrLongPath        Refusal = C.LT_REFUSAL_LONG_PATH   // a path has more than 262080 bytes
	ErrNoReply         Refusal = C.LT_REFUSAL_NO_REPLY    // the reply is not the expected one
)

// Error is the library's text.
func (refusal Refusal) Error() string {
	if refusal == ErrBadPointer {
		// The library has other reasons too, but this package passes valid pointers.
		return "lucernetick: the engine was closed"
	}
	return "lucernetick: " + message(C.int64_t(refusal))
}

// The errors of arguments that are not valid. Wrapping errors say which, and why.
var (
	ErrBadKind   = errors.New("lucernetick: no request has this kind")
	ErrBadStatus = errors.New("lucernetick: the protocol does not have this status")
	ErrBadPath   = errors.New("lucernetick: this is not a path")
)

// A Turn is what a turn did, or why the session ended.
type Turn int64

// The results of turns. Those from NotInit on are endings.
const (
	Idle       Turn = C.LT_TURN_IDLE    // nothing: no complete packet is buffered
	Wrote      Turn = C.LT_TURN_WROTE   // it wrote a reply, now in the output
	Begun      Turn = C.LT_TURN_BEGUN   // it read a request; its call begins at this timestamp
	Moved      Turn = C.LT_TURN_MOVED   // the call made one step
	Blocked    Turn = C.LT_TURN_BLOCKED // the call of another session has to advance first
	Decided    Turn = C.LT_TURN_DECIDED // the call is decided; the next turn writes its reply
	Spent      Turn = C.LT_TURN_SPENT   // only by Settle: the maximum number of replies was written
	NotInit    Turn = C.LT_TURN_ENDED + C.LT_CAUSE_NOT_INIT
	OldVersion Turn = C.LT_TURN_ENDED + C.LT_CAUSE_OLD_VERSION
	SecondInit Turn = C.LT_TURN_ENDED + C.LT_CAUSE_SECOND_INIT
	ZeroLength Turn = C.LT_TURN_ENDED + C.LT_CAUSE_ZERO_LENGTH
	TooLong    Turn = C.LT_TURN_ENDED + C.LT_CAUSE_TOO_LONG
	NoID       Turn = C.LT_TURN_ENDED + C.LT_CAUSE_NO_ID
	Closed     Turn = C.LT_TURN_ENDED + C.LT_CAUSE_CLOSED
)

// String is the library's text.
func (turn Turn) String() string { return message(C.int64_t(turn)) }

// HasEnded reports whether the session has ended.
func (turn Turn) HasEnded() bool { return turn > C.LT_TURN_ENDED }

// An Engine is one file system and any number of sessions on it. Goroutines may share it; it runs
// one call at a time.
type Engine struct {
	lock    monitor
	moved   *sync.Cond // signalled after a session made progress, was fed, or was closed
	pointer *C.lt_engine

	keep     uint64 // how many records are retained; 0 for all
	limit    uint64 // how many of them the library retains
	kept     []Call // the last calls, if there is a limit; otherwise the library has them
	recorded uint64 // the number of records so far
	seen     int64  // the number of the library's records that were read
	last     seenRecord
	highest  uint64       // the highest number of a call that was read
	changes  uint64       // counts calls after which a new file may be complete
	check    func() error // why clients cannot be served; may be nil

	opened   map[uint64]opened // the open handles
	inputs   map[uint64]*input // of each session that has not ended
	rules    []*GivenRule
	hooks    []*Hook
	lost     string          // a path that no client knows, followed by the code of a status
	statuses map[uint32]bool // the library has a rule for these statuses of lost
	modes    *taken          // has the names and attributes of now, for permissions; may be nil
}

// New makes an engine with an empty root. It retains the records of all calls. Records take memory,
// including the bytes written and read. Close frees the engine.
func New() (*Engine, error) { return NewKeeping(0) }

// NewKeeping is like New, but retains the records of the last keep calls only, or of all calls if
// keep is 0. Records change no reply.
func NewKeeping(keep uint64) (*Engine, error) {
	var random [16]byte
	if _, err := rand.Read(random[:]); err != nil {
		return nil, fmt.Errorf("lucernetick: %w", err)
	}
	engine := &Engine{
		keep:     keep,
		opened:   map[uint64]opened{},
		inputs:   map[uint64]*input{},
		lost:     "/" + hex.EncodeToString(random[:]),
		statuses: map[uint32]bool{},
	}
	if keep > 0 {
		engine.limit = leastKept
		if keep > leastKept {
			engine.limit = keep
		}
	}
	engine.moved = sync.NewCond(&engine.lock)
	engine.pointer = C.lt_new_keeping(C.uint64_t(engine.limit))
	if engine.pointer == nil {
		return nil, ErrOutOfMemory
	}
	return engine, nil
}

var _ io.Closer = (*Engine)(nil)

// Close frees the engine. Further calls on it and its sessions return ErrBadPointer; a further
// Close does nothing. The error is always nil.
func (engine *Engine) Close() error {
	engine.lock.Lock()
	defer engine.lock.Unlock()
	engine.dropModes()
	C.lt_free(engine.pointer)
	engine.pointer = nil
	engine.moved.Broadcast()
	return nil
}

// Open opens a session. At most 256 are open at a time.
func (engine *Engine) Open() (*Session, error) { return engine.OpenAt("/") }

// OpenAt is like Open, for a client that sees the directory root of the tree as "/".
func (engine *Engine) OpenAt(root string) (*Session, error) {
	if err := checkPath(root); err != nil {
		return nil, err
	}
	engine.lock.Lock()
	defer engine.lock.Unlock()
	return engine.open(namesOf(root))
}

// RunAll runs rounds until no call is in progress. In a round every session with a call in progress
// has one turn, with the timestamp 0, in the order of session numbers. It returns the number of
// rounds. Later turns write the replies. It fails only on a closed engine.
func (engine *Engine) RunAll() (uint64, error) {
	engine.lock.Lock()
	defer engine.lock.Unlock()
	rounds, err := checked(C.lt_run_all(engine.pointer))
	if rounds > 0 {
		engine.hasMoved()
	}
	return uint64(rounds), err
}

// A Session is one client's session with an engine.
type Session struct {
	engine *Engine
	number C.uint64_t
}

// Number is 1 for an engine's first session, then 2, 3 and so on.
func (session *Session) Number() uint64 { return uint64(session.number) }

// Feed appends bytes that the client sent to the session's input. They may be fragmented in any
// way.
func (session *Session) Feed(data []byte) error {
	session.engine.lock.Lock()
	defer session.engine.lock.Unlock()
	return session.feed(data)
}

// Turn does one thing: it writes a reply, makes one step of the session's call, or reads a packet.
// A call that begins has the timestamp moment, in whole seconds.
func (session *Session) Turn(moment time.Time) (Turn, error) {
	begins, err := timestampOf("moment", moment)
	if err != nil {
		return 0, err
	}
	session.engine.lock.Lock()
	defer session.engine.lock.Unlock()
	engine := session.engine
	if err := session.offer(); err != nil {
		return 0, err
	}
	number, err := checked(C.lt_turn(engine.pointer, session.number, C.uint32_t(begins)))
	turn := Turn(number)
	if err == nil && turn != Idle && turn != Blocked {
		session.took(turn)
	}
	return turn, err
}

// Settle repeats turns until the session is idle, blocked or ended, or until it has written most
// replies.
func (session *Session) Settle(moment time.Time, most uint64) (Turn, error) {
	begins, err := timestampOf("moment", moment)
	if err != nil {
		return 0, err
	}
	session.engine.lock.Lock()
	defer session.engine.lock.Unlock()
	return session.settle(begins, most)
}

// WantsBytes reports whether the session waits for bytes from its client: no call is in progress,
// no complete packet is buffered, and it has not ended.
func (session *Session) WantsBytes() (bool, error) {
	session.engine.lock.Lock()
	defer session.engine.lock.Unlock()
	wants, err := session.wantsBytes()
	in := session.engine.inputs[uint64(session.number)]
	return wants && in != nil && in.packet() == nil, err
}

// Output copies the pending output. If a rule rejected requests, these are the bytes up to the last
// injected reply; later output follows once they were sent.
func (session *Session) Output() ([]byte, error) {
	session.engine.lock.Lock()
	defer session.engine.lock.Unlock()
	return session.output()
}

// Take returns and discards all pending output.
func (session *Session) Take() ([]byte, error) {
	session.engine.lock.Lock()
	defer session.engine.lock.Unlock()
	var taken []byte
	for {
		output, err := session.output()
		if err != nil || len(output) == 0 {
			return taken, err
		}
		if err := session.sent(len(output)); err != nil {
			return taken, err
		}
		taken = append(taken, output...)
	}
}

// Sent discards the first count bytes of the pending output, which were sent.
func (session *Session) Sent(count int) error {
	session.engine.lock.Lock()
	defer session.engine.lock.Unlock()
	return session.sent(count)
}

var _ io.Closer = (*Session)(nil)

// Close ends the session's input. Further turns finish a call in progress and write its reply.
func (session *Session) Close() error {
	session.engine.lock.Lock()
	defer session.engine.lock.Unlock()
	return session.close()
}

// The methods below are called with the engine's lock held.

func (engine *Engine) open(root []string) (*Session, error) {
	number, err := checked(C.lt_open(engine.pointer))
	if err != nil {
		return nil, err
	}
	engine.inputs[uint64(number)] = &input{root: root}
	return &Session{engine, C.uint64_t(number)}, nil
}

// hasMoved is called after a session made progress.
func (engine *Engine) hasMoved() {
	engine.moved.Broadcast()
	engine.note()
}

// waitUntil waits until something has moved, or until this time.
func (engine *Engine) waitUntil(until time.Time) {
	alarm := time.AfterFunc(time.Until(until), func() {
		engine.lock.Lock()
		defer engine.lock.Unlock()
		engine.moved.Broadcast()
	})
	defer alarm.Stop()
	engine.moved.Wait()
}

// feed checks that the session reads further bytes, and adds them. The library gets them packet by
// packet when it reads them: until then rules apply.
func (session *Session) feed(data []byte) error {
	if _, err := checked(C.lt_feed(session.engine.pointer, session.number, nil, 0)); err != nil {
		return err
	}
	in := session.engine.inputs[uint64(session.number)]
	if in == nil {
		return ErrHasEnded
	}
	in.Write(data)
	return nil
}

func (session *Session) wantsBytes() (bool, error) {
	wants, err := checked(C.lt_wants_bytes(session.engine.pointer, session.number))
	return wants == 1, err
}

// offer feeds the library the session's next packet, if it waits for one.
func (session *Session) offer() error {
	engine := session.engine
	in := engine.inputs[uint64(session.number)]
	if in == nil {
		return nil
	}
	packet := in.packet()
	if packet == nil {
		return nil
	}
	if wants, err := session.wantsBytes(); err != nil || !wants {
		return err
	}
	length := len(packet)
	if in.begun && len(in.root) > 0 {
		packet = belowRoot(packet, in.root)
	}
	if in.begun && (len(engine.rules) > 0 || len(engine.hooks) > 0) {
		ruled, err := engine.ruled(session.Number(), append([]byte(nil), packet...))
		if err != nil {
			return err
		}
		packet = ruled
	}
	answer := C.lt_feed(engine.pointer, session.number, start(packet), C.size_t(len(packet)))
	if _, err := checked(answer); err != nil {
		return err
	}
	in.Next(length)
	in.begun = true
	return nil
}

// took is called after a turn that did something.
func (session *Session) took(turn Turn) {
	if turn.HasEnded() {
		delete(session.engine.inputs, uint64(session.number))
	}
	session.engine.hasMoved()
}

// settle runs the turns of one packet after another.
func (session *Session) settle(moment timestamp, most uint64) (Turn, error) {
	engine := session.engine
	for count := uint64(0); count < most; count++ {
		if err := session.offer(); err != nil {
			return 0, err
		}
		var moved C.bool
		answer := C.lt_settle(engine.pointer, session.number, C.uint32_t(moment), 1, &moved)
		turn := Turn(answer)
		if bool(moved) || turn.HasEnded() {
			session.took(turn)
		}
		if _, err := checked(answer); err != nil {
			return 0, err
		}
		if turn != Spent {
			return turn, nil
		}
	}
	return Spent, nil
}

func (session *Session) output() ([]byte, error) {
	waiting, err := session.look(nil)
	if err != nil {
		return nil, err
	}
	data := make([]byte, waiting)
	_, err = session.look(data)
	return data, err
}

// look copies the first pending bytes, and returns how many are pending.
func (session *Session) look(room []byte) (int, error) {
	answer := C.lt_output(session.engine.pointer, session.number, start(room), C.size_t(len(room)))
	waiting, err := checked(answer)
	return int(waiting), err
}

// take copies and discards the first pending bytes, as many as fit.
func (session *Session) take(room []byte) (int, error) {
	count, err := session.look(room)
	if err != nil {
		return 0, err
	}
	if count > len(room) {
		count = len(room)
	}
	return count, session.sent(count)
}

func (session *Session) sent(count int) error {
	if err := checkRange("count", int64(count), 0, math.MaxInt64); err != nil {
		return err
	}
	_, err := checked(C.lt_sent(session.engine.pointer, session.number, C.size_t(count)))
	return err
}

func (session *Session) close() error {
	_, err := checked(C.lt_close(session.engine.pointer, session.number))
	delete(session.engine.inputs, uint64(session.number))
	session.engine.hasMoved()
	return err
}

// Version is the library's version.
func Version() string { return C.GoString(C.lt_version()) }

func message(answer C.int64_t) string { return C.GoString(C.lt_message(answer)) }

func checked(answer C.int64_t) (int64, error) {
	if answer < 0 {
		return 0, Refusal(answer)
	}
	return int64(answer), nil
}

func start(data []byte) *C.uint8_t {
	if len(data) == 0 {
		return nil
	}
	return (*C.uint8_t)(unsafe.Pointer(&data[0]))
}
