package lucernetick

// #include "lucernetick.h"
import "C"

import (
	"encoding/binary"
	"fmt"
	"io/fs"
	"syscall"
	"time"
)

// SetAttributes sets attributes of a file or a directory: those whose bits Given has. The owner
// always has both ids, and both times are set. A new size sets the file's mtime to moment. It is a
// request in a session of its own, to which no rule applies. If there is no such path, and for the
// root, the error is a StatusError.
func (engine *Engine) SetAttributes(path string, attributes Attributes, moment time.Time) error {
	begins, err := timestampOf("moment", moment)
	if err = firstOf(err, checkPath(path)); err != nil {
		return err
	}
	encoded, err := encodedAttributes(attributes)
	if err != nil {
		return err
	}
	return engine.setAttributes([]pathAttributes{{normal(path), encoded}}, begins)
}

// A pathAttributes has attributes of a path, as SETSTAT has them.
type pathAttributes struct {
	path    string
	encoded []byte
}

func (engine *Engine) setAttributes(given []pathAttributes, moment timestamp) error {
	engine.lock.Lock()
	defer engine.lock.Unlock()
	session, err := checked(C.lt_open(engine.pointer))
	if err != nil {
		return err
	}
	defer engine.hasMoved()
	defer C.lt_close(engine.pointer, C.uint64_t(session))
	ask := func(packet []byte, request string) ([]byte, error) {
		return engine.ask(session, packet, request, moment)
	}
	if _, err := ask([]byte{0, 0, 0, 5, 1, 0, 0, 0, 3}, "INIT"); err != nil {
		return err
	}
	for _, one := range given {
		body := append([]byte{byte(KindSetstat), 0, 0, 0, 1}, appendText(nil, []byte(one.path))...)
		packet := appendText(nil, append(body, one.encoded...))
		request := requestName(C.LT_KIND_SETSTAT) + " " + one.path
		reply, err := ask(packet, request)
		if err != nil {
			return err
		}
		// A status has its code after the length, the type and the id.
		if code := binary.BigEndian.Uint32(reply[headBytes:]); code != 0 {
			return &StatusError{code, Reply{Kind: AnswerStatus, Status: code}.String(), request}
		}
	}
	return nil
}

// ask returns the reply to a packet. The lock is held.
func (engine *Engine) ask(
	number int64, packet []byte, request string, moment timestamp,
) ([]byte, error) {
	session := &Session{engine, C.uint64_t(number)}
	fed := C.lt_feed(engine.pointer, session.number, start(packet), C.size_t(len(packet)))
	if _, err := checked(fed); err != nil {
		return nil, err
	}
	var moved C.bool
	turn, err := checked(C.lt_settle(engine.pointer, session.number, C.uint32_t(moment), 1, &moved))
	if err != nil {
		return nil, err
	}
	reply, err := session.output()
	switch {
	case err != nil:
		return nil, err
	case len(reply) < headBytes+4 && Turn(turn) == Blocked:
		return nil, fmt.Errorf("%s: %w", request, ErrBlocked)
	case len(reply) < headBytes+4:
		return nil, fmt.Errorf("%s: %w", request, ErrNoReply)
	}
	return reply, session.sent(len(reply))
}

// encodedAttributes returns the attributes that are given, as SETSTAT has them.
func encodedAttributes(given Attributes) ([]byte, error) {
	const all = givenSize | givenOwner | givenPermissions | givenTimes
	if given.Given&^all != 0 {
		return nil, fmt.Errorf("lucernetick: Given must have no bits but %#x, not %#x", all, given.Given)
	}
	encoded := binary.BigEndian.AppendUint32(nil, given.Given)
	if given.Given&givenSize != 0 {
		encoded = binary.BigEndian.AppendUint64(encoded, given.Size)
	}
	var fields []uint32
	if given.Given&givenOwner != 0 {
		fields = append(fields, given.UID, given.GID)
	}
	if given.Given&givenPermissions != 0 {
		fields = append(fields, given.Permissions)
	}
	if given.Given&givenTimes != 0 {
		accessed, err := timestampOf("Atime", given.Atime)
		modified, other := timestampOf("Mtime", given.Mtime)
		if err = firstOf(err, other); err != nil {
			return nil, err
		}
		fields = append(fields, uint32(accessed), uint32(modified))
	}
	for _, field := range fields {
		encoded = binary.BigEndian.AppendUint32(encoded, field)
	}
	return encoded, nil
}

// encodedInfo returns owner, permissions and times, as SETSTAT has them.
func encodedInfo(info fs.FileInfo) []byte {
	var owner, group uint32
	accessed := info.ModTime()
	switch found := info.Sys().(type) {
	case *syscall.Stat_t:
		owner, group, accessed = found.Uid, found.Gid, time.Unix(found.Atim.Unix())
	case Entry:
		owner, group, accessed = found.UID, found.GID, found.Atime
	}
	given := uint32(givenOwner | givenPermissions | givenTimes)
	var encoded []byte
	for _, field := range []uint32{
		given, owner, group, permissionsOf(info.Mode()), nearest(accessed), nearest(info.ModTime()),
	} {
		encoded = binary.BigEndian.AppendUint32(encoded, field)
	}
	return encoded
}

// nearest returns the timestamp of the protocol that is nearest to a time.
func nearest(moment time.Time) uint32 {
	switch seconds := moment.Unix(); {
	case seconds < 0:
		return 0
	case seconds > latest:
		return latest
	default:
		return uint32(seconds)
	}
}
