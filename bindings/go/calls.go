package lucernetick

/*
#include "lucernetick.h"
*/
import "C"

import (
	"errors"
	"fmt"
	"strings"
	"time"
	"unsafe"
)

// A Kind is the request of a call, or the requests that a Rule matches. Records have KindStat for
// LSTAT. KindFsetstat is also fsync@openssh.com, and KindSetstat lsetstat@openssh.com.
type Kind uint32

// The kinds of calls.
const (
	KindOpen        Kind = C.LT_KIND_OPEN
	KindClose       Kind = C.LT_KIND_CLOSE
	KindRead        Kind = C.LT_KIND_READ
	KindWrite       Kind = C.LT_KIND_WRITE
	KindLstat       Kind = C.LT_KIND_LSTAT // only in a Rule
	KindFstat       Kind = C.LT_KIND_FSTAT
	KindSetstat     Kind = C.LT_KIND_SETSTAT
	KindFsetstat    Kind = C.LT_KIND_FSETSTAT
	KindOpendir     Kind = C.LT_KIND_OPENDIR
	KindReaddir     Kind = C.LT_KIND_READDIR
	KindRemove      Kind = C.LT_KIND_REMOVE
	KindMkdir       Kind = C.LT_KIND_MKDIR
	KindRmdir       Kind = C.LT_KIND_RMDIR
	KindRealpath    Kind = C.LT_KIND_REALPATH // only in a Rule
	KindStat        Kind = C.LT_KIND_STAT
	KindRename      Kind = C.LT_KIND_RENAME
	KindPosixRename Kind = C.LT_KIND_POSIX_RENAME
	KindHardlink    Kind = C.LT_KIND_HARDLINK
)

// isRequest reports whether it is the kind of a request.
func (kind Kind) isRequest() bool {
	_, there := kindNames[kind]
	return there
}

// isRecorded reports whether records have this kind: LSTAT is recorded as STAT, REALPATH is not.
func (kind Kind) isRecorded() bool {
	return kind.isRequest() && kind != KindLstat && kind != KindRealpath
}

var kindNames = map[Kind]string{
	KindOpen: "open", KindClose: "close", KindRead: "read", KindWrite: "write",
	KindLstat: "lstat", KindFstat: "fstat", KindSetstat: "setstat", KindFsetstat: "fsetstat",
	KindOpendir: "opendir", KindReaddir: "readdir", KindRemove: "remove", KindMkdir: "mkdir",
	KindRmdir: "rmdir", KindRealpath: "realpath", KindStat: "stat", KindRename: "rename",
	KindPosixRename: "posix-rename", KindHardlink: "hardlink",
}

// String is the name of the request, such as "posix-rename".
func (kind Kind) String() string {
	if name, there := kindNames[kind]; there {
		return name
	}
	return fmt.Sprintf("kind %d", uint32(kind))
}

// An OpenFlag is a bit of the pflags of OPEN.
type OpenFlag uint32

// The flags of OPEN.
const (
	OpenFlagRead OpenFlag = 1 << iota
	OpenFlagWrite
	OpenFlagAppend
	OpenFlagCreate
	OpenFlagTruncate
	OpenFlagExcl
)

// An Answer is the kind of a reply.
type Answer uint32

// The kinds of replies.
const (
	AnswerNoMemory Answer = C.LT_ANSWER_NO_MEMORY // the status FAILURE, because memory ran out
	AnswerStatus   Answer = C.LT_ANSWER_STATUS
	AnswerHandle   Answer = C.LT_ANSWER_HANDLE
	AnswerData     Answer = C.LT_ANSWER_DATA
	AnswerNames    Answer = C.LT_ANSWER_NAMES
	AnswerAttrs    Answer = C.LT_ANSWER_ATTRS
)

// Attributes are those of a request or a reply. Given has the protocol's bits of those present: 1
// for the size, 2 for uid and gid, 4 for the permissions, 8 for both times.
type Attributes struct {
	Given        uint32
	Size         uint64
	UID, GID     uint32
	Permissions  uint32
	Atime, Mtime time.Time // the zero time if they are not present
}

// A Call is the record of a call. Fields that its kind or reply does not have are 0 or empty.
type Call struct {
	Number     uint64 // 1, 2, 3 and so on, as calls begin
	Session    uint64
	Moment     time.Time // when it began
	Kind       Kind
	Path       string // absolute, in normal form; of a rename or a link the old path
	NewPath    string
	Handle     uint64 // the number of the call that opened it
	Offset     uint64
	Length     uint64 // the number of bytes requested or written
	Flags      OpenFlag
	Data       []byte // the bytes of WRITE
	Attributes Attributes
	Reply      Reply
}

// String is one line: the session, number, timestamp, request and result of the call.
func (call Call) String() string {
	words := fmt.Sprintf("session %d call %d at %d: %v", call.Session, call.Number,
		call.Moment.Unix(), call.Kind)
	for _, path := range []string{call.Path, call.NewPath} {
		if path != "" {
			words += fmt.Sprintf(" %q", path)
		}
	}
	if call.Handle != 0 {
		words += fmt.Sprintf(" handle %d", call.Handle)
	}
	if call.Kind == KindRead || call.Kind == KindWrite {
		words += fmt.Sprintf(" offset %d length %d", call.Offset, call.Length)
	}
	return words + " -> " + call.Reply.String()
}

// A Reply is the reply to a call.
type Reply struct {
	Kind       Answer
	Status     uint32 // the code of a status: 0 for OK
	Handle     uint64 // the number of the call, which is its handle
	Data       []byte // the bytes of READ
	Names      []string
	Attributes Attributes
}

// IsOK reports whether the call succeeded.
func (reply Reply) IsOK() bool {
	return reply.Kind > AnswerStatus || reply.Kind == AnswerStatus && reply.Status == 0
}

// String is the message of a status, or what the reply has.
func (reply Reply) String() string {
	switch reply.Kind {
	case AnswerNoMemory:
		return "Out of memory"
	case AnswerStatus:
		return message(C.LT_REFUSAL_STATUS_BASE - C.int64_t(reply.Status))
	case AnswerHandle:
		return fmt.Sprintf("handle %d", reply.Handle)
	case AnswerData:
		return fmt.Sprintf("data of length %d", len(reply.Data))
	case AnswerNames:
		return fmt.Sprintf("%d names", len(reply.Names))
	}
	return "attributes"
}

// ErrDropped is wrapped by the error of Calls if the engine has a limit and dropped records.
var ErrDropped = errors.New("calls were dropped")

// Calls returns the records of all calls, in the order in which they took effect. They include the
// calls of WriteFiles, in sessions of their own. Snapshots make no calls.
//
// The result is complete. If the engine has a limit (NewKeeping) and has dropped its oldest
// records, the error is ErrDropped.
func (engine *Engine) Calls() ([]Call, error) {
	engine.lock.Lock()
	defer engine.lock.Unlock()
	if dropped := engine.dropped(); dropped > 0 {
		return nil, fmt.Errorf("lucernetick: %d %w, since the engine keeps the last %d; use New, or "+
			"LastCalls for those left", dropped, ErrDropped, engine.keep)
	}
	return engine.lastCalls()
}

// LastCalls returns the retained records, see Calls.
func (engine *Engine) LastCalls() ([]Call, error) {
	engine.lock.Lock()
	defer engine.lock.Unlock()
	return engine.lastCalls()
}

// Dropped returns how many records were dropped, since the engine has a limit (NewKeeping).
func (engine *Engine) Dropped() uint64 {
	engine.lock.Lock()
	defer engine.lock.Unlock()
	return engine.dropped()
}

// The functions below are called with the engine's lock held.

func (engine *Engine) dropped() uint64 {
	if engine.keep == 0 {
		return 0
	}
	return engine.recorded - uint64(len(engine.kept))
}

func (engine *Engine) lastCalls() ([]Call, error) {
	if engine.pointer == nil {
		return nil, ErrBadPointer
	}
	if engine.keep > 0 {
		return append([]Call(nil), engine.kept...), nil
	}
	var calls []Call
	var record C.lt_call
	for at := int64(0); at < engine.seen; at++ {
		C.lt_calls(engine.pointer, C.uint64_t(at), &record)
		if record.kind != C.LT_KIND_LEFT {
			calls = append(calls, callOf(&record, true))
		}
	}
	return calls, nil
}

// leastKept is more than the records that one turn adds: it may complete the calls of all sessions.
const leastKept = 512

// beyond is the index of no record.
const beyond = 1 << 63

// An opened is a handle that is open.
type opened struct {
	session uint64
	path    string
	flags   OpenFlag
}

// A seenRecord identifies a record: the number of a call, or 0 and the session that ended.
type seenRecord struct{ number, session uint64 }

func seenOf(record *C.lt_call) seenRecord {
	return seenRecord{uint64(record.number), uint64(record.session)}
}

// note reads the records that were added since the last time.
func (engine *Engine) note() {
	if engine.pointer == nil {
		return
	}
	var record C.lt_call
	count := int64(C.lt_calls(engine.pointer, beyond, &record))
	first := engine.seen
	if engine.keep > 0 && count == int64(engine.limit) {
		first = engine.firstNew(count)
	}
	// If only some of the calls are read below, those before them are missed.
	missing := first == 0 && count == int64(engine.limit) && engine.keep > 0
	withData := engine.keep > 0 || len(engine.hooks) > 0
	var added []Call
	for at := first; at < count; at++ {
		C.lt_calls(engine.pointer, C.uint64_t(at), &record)
		call := callOf(&record, withData)
		if missing && call.Kind != C.LT_KIND_LEFT {
			missing = false
			if call.Number > engine.highest+1 {
				engine.dropModes()
				engine.recorded += call.Number - engine.highest - 1
				engine.kept = nil
			}
		}
		if call.Number > engine.highest {
			engine.highest = call.Number
		}
		engine.last = seenOf(&record)
		added = append(added, call)
	}
	engine.seen = count
	for _, call := range added {
		engine.add(call)
	}
}

// dropRules drops the permissions of a session that has ended.
func (engine *Engine) dropRules(session uint64) {
	var left []*GivenRule
	for _, rule := range engine.rules {
		if rule.owner == nil || rule.rule.Session != session {
			left = append(left, rule)
		}
	}
	engine.rules = left
}

// firstNew returns the index of the first record after the last one that was read. All may be new.
func (engine *Engine) firstNew(count int64) int64 {
	var record C.lt_call
	for at := count; at > 0; at-- {
		C.lt_calls(engine.pointer, C.uint64_t(at-1), &record)
		if seenOf(&record) == engine.last {
			return at
		}
	}
	return 0
}

// add adds a record. A record of the kind LEFT says that a session has ended.
func (engine *Engine) add(call Call) {
	switch call.Kind {
	case C.LT_KIND_LEFT:
		for handle, opened := range engine.opened {
			if opened.session == call.Session {
				delete(engine.opened, handle)
				engine.changes++
			}
		}
		engine.dropRules(call.Session)
		return
	case KindOpen, KindOpendir:
		if call.Reply.Kind == AnswerHandle {
			engine.opened[call.Reply.Handle] = opened{call.Session, call.Path, call.Flags}
		}
		engine.changes++
	case KindClose:
		delete(engine.opened, call.Handle)
		engine.changes++
	case KindMkdir, KindRename, KindPosixRename, KindHardlink:
		engine.changes++
	}
	if call.shapes() {
		engine.dropModes()
	}
	engine.recorded++
	if engine.keep > 0 {
		engine.kept = append(engine.kept, call)
		if uint64(len(engine.kept)) > engine.keep {
			engine.kept[0] = Call{}
			engine.kept = engine.kept[1:]
		}
	}
	for _, hook := range append([]*Hook(nil), engine.hooks...) {
		if hook.after != nil {
			engine.lock.call(func() { hook.after(call) })
		}
	}
}

func callOf(call *C.lt_call, withData bool) Call {
	found := Call{
		Number:     uint64(call.number),
		Session:    uint64(call.session),
		Moment:     timestamp(call.moment).time(),
		Kind:       Kind(call.kind),
		Path:       string(bytesOf(call.path)),
		NewPath:    string(bytesOf(call.new_path)),
		Handle:     uint64(call.handle),
		Offset:     uint64(call.offset),
		Length:     uint64(call.length),
		Flags:      OpenFlag(call.flags),
		Attributes: attributesOf(call.attributes),
		Reply: Reply{
			Kind:       Answer(call.answer),
			Status:     uint32(call.status),
			Handle:     uint64(call.answer_handle),
			Attributes: attributesOf(call.answer_attributes),
		},
	}
	if !withData {
		return found
	}
	found.Data = bytesOf(call.written)
	data := bytesOf(call.answer_bytes)
	switch found.Reply.Kind {
	case AnswerData:
		found.Reply.Data = data
	case AnswerNames:
		names := strings.TrimSuffix(string(data), "\x00")
		found.Reply.Names = strings.Split(names, "\x00")
	}
	return found
}

func attributesOf(found C.lt_attributes) Attributes {
	attributes := Attributes{
		Given:       uint32(found.given),
		Size:        uint64(found.size),
		UID:         uint32(found.uid),
		GID:         uint32(found.gid),
		Permissions: uint32(found.permissions),
	}
	if found.given&givenTimes != 0 {
		attributes.Atime = timestamp(found.atime).time()
		attributes.Mtime = timestamp(found.mtime).time()
	}
	return attributes
}

// The flags of attributes.
const (
	givenSize        = 1
	givenOwner       = 2
	givenPermissions = 4
	givenTimes       = 8
	givenPairs       = 1 << 31
)

func bytesOf(bytes C.lt_bytes) []byte {
	return C.GoBytes(unsafe.Pointer(bytes.at), C.int(bytes.length))
}
