package lucernetick

/*
#include <stdlib.h>
#include "lucernetick.h"
*/
import "C"

import (
	"fmt"
	"math"
	"path"
	"strings"
	"unsafe"
)

// A Status is the reply to a rejected request.
type Status uint32

// The statuses of the protocol. The zero value is StatusFailure.
const (
	StatusFailure Status = iota
	StatusOK
	StatusEOF
	StatusNoSuchFile
	StatusPermissionDenied
	StatusBadMessage
	StatusOpUnsupported
)

var codes = [...]uint32{4, 0, 1, 2, 3, 5, 8}

// Code returns the protocol's number of a status.
func (status Status) Code() uint32 {
	if int(status) >= len(codes) {
		return math.MaxUint32
	}
	return codes[status]
}

// Always is a Rule's Times that rejects all requests.
const Always = math.MaxUint64

// A Rule injects errors: it selects requests, how many of them, and the status to return. The zero
// value rejects the next request of any kind with StatusFailure.
type Rule struct {
	Session uint64 // its number; 0 is any, including later ones
	Kind    Kind   // 0 is any. Kinds are not bits: When selects several
	// Path selects requests for this path, in any spelling; "" is any. A request by handle, as
	// WRITE, is for the path that the handle was opened with. A name may have the wildcards of
	// path.Match ([!a] is [^a]), and the name ** is any number of names. Escape escapes them.
	Path  string
	Flags OpenFlag           // OPEN requests that have all of these flags
	When  func(Request) bool // requests for which it returns true, of those selected above

	After      uint64 // how many of the selected requests pass first
	AfterBytes uint64 // then WRITEs of this many bytes in total pass
	Times      uint64 // how many requests are rejected then; 0 is one. Later requests pass
	Status     Status
}

// A GivenRule is a rule of an engine. It holds until its End.
type GivenRule struct {
	engine   *Engine
	rule     Rule
	names    []string // of the path; nil for any
	hasBytes bool     // AfterBytes was given
	owner    *owner   // of EnforcePermissions
	refused  uint64
}

// Refuse adds a rule. A rejected request gets a status in its place, never reaches the file system,
// and is not recorded. If several rules match, the oldest one that rejects the request counts it.
// Rules never apply to INIT, nor to requests that a turn has already read, nor to WriteFiles.
func (engine *Engine) Refuse(rule Rule) (*GivenRule, error) {
	if err := rule.check(); err != nil {
		return nil, err
	}
	given := &GivenRule{engine: engine, rule: rule, hasBytes: rule.AfterBytes > 0}
	if rule.Path != "" {
		given.names = namesOf(translated(rule.Path))
	}
	if rule.Times == 0 {
		given.rule.Times = 1
	}
	if rule.Flags != 0 {
		given.rule.Kind = KindOpen
	} else if rule.AfterBytes != 0 {
		given.rule.Kind = KindWrite
	}
	return engine.give(given)
}

// give adds a rule.
func (engine *Engine) give(given *GivenRule) (*GivenRule, error) {
	engine.lock.Lock()
	defer engine.lock.Unlock()
	if engine.pointer == nil {
		return nil, ErrBadPointer
	}
	engine.rules = append(engine.rules, given)
	return given, nil
}

// DiskFull simulates a full disk: WRITEs of this many bytes in total succeed. A WRITE that does not
// fit fails, until the rule ends.
func (engine *Engine) DiskFull(after uint64) (*GivenRule, error) {
	writes := func(request Request) bool { return len(request.Data) > 0 }
	return engine.Refuse(Rule{Kind: KindWrite, When: writes, AfterBytes: after, Times: Always})
}

// ReadOnly makes the tree read-only for clients, or what matches this path as in a Rule. Requests
// that would change it fail with StatusPermissionDenied until the rule ends.
func (engine *Engine) ReadOnly(path string) (*GivenRule, error) {
	return engine.Refuse(Rule{
		Path: path, When: wouldChange, Times: Always, Status: StatusPermissionDenied,
	})
}

// Refused returns how many requests the rule has rejected so far.
func (rule *GivenRule) Refused() uint64 {
	rule.engine.lock.Lock()
	defer rule.engine.lock.Unlock()
	return rule.refused
}

// End ends the rule: it rejects no further request.
func (rule *GivenRule) End() {
	engine := rule.engine
	engine.lock.Lock()
	defer engine.lock.Unlock()
	for at, one := range engine.rules {
		if one == rule {
			engine.rules = append(engine.rules[:at:at], engine.rules[at+1:]...)
			return
		}
	}
}

// check reports why a rule could not select a request, or has no valid status.
func (rule *Rule) check() error {
	if rule.Kind != 0 && !rule.Kind.isRequest() {
		return fmt.Errorf("%w: %v", ErrBadKind, rule.Kind)
	}
	if int(rule.Status) >= len(codes) {
		return fmt.Errorf("%w: %d", ErrBadStatus, rule.Status)
	}
	if rule.Flags != 0 && rule.Kind != 0 && rule.Kind != KindOpen {
		return fmt.Errorf("%w: Flags needs KindOpen, not %v", ErrBadKind, rule.Kind)
	}
	if rule.AfterBytes != 0 && rule.Kind != 0 && rule.Kind != KindWrite {
		return fmt.Errorf("%w: AfterBytes needs KindWrite, not %v", ErrBadKind, rule.Kind)
	}
	if rule.Flags != 0 && rule.AfterBytes != 0 {
		return fmt.Errorf("%w: Flags needs OPEN, and AfterBytes WRITE", ErrBadKind)
	}
	return checkPattern(rule.Path)
}

var escapes = strings.NewReplacer(`\`, `\\`, "*", "[*]", "?", "[?]", "[", "[[]")

// Escape escapes the wildcards of a path, so that as a pattern it matches only itself.
func Escape(path string) string { return escapes.Replace(path) }

var negations = strings.NewReplacer(`\\`, `\\`, `\[`, `\[`, "[!", "[^")

// translated returns a pattern with negations as path.Match has them. Other languages have [!a].
func translated(pattern string) string { return negations.Replace(pattern) }

// checkPattern checks a path with wildcards; "" is any.
func checkPattern(pattern string) error {
	if pattern == "" {
		return nil
	}
	if err := checkPath(pattern); err != nil {
		return err
	}
	for _, name := range strings.Split(translated(pattern), "/") {
		if _, err := path.Match(name, ""); err != nil {
			return fmt.Errorf("%w: %q: %v", ErrBadPath, pattern, err)
		}
	}
	return nil
}

// judge reports whether the rule rejects a request.
func (rule *GivenRule) judge(request Request) (bool, error) {
	given := &rule.rule
	if given.Times == 0 || !rule.selects(request) {
		return false, nil
	}
	if rule.owner != nil {
		if denied, err := rule.denies(request); !denied || err != nil {
			return false, err
		}
	}
	if given.After > 0 {
		given.After--
		return false, nil
	}
	if size := uint64(len(request.Data)); rule.hasBytes && given.AfterBytes >= size {
		given.AfterBytes -= size
		return false, nil
	}
	if given.Times != Always {
		given.Times--
	}
	rule.refused++
	return true, nil
}

// isOf reports whether the rule is for the session of a request.
func (rule *GivenRule) isOf(request Request) bool {
	return rule.rule.Session == 0 || rule.rule.Session == request.Session
}

func (rule *GivenRule) selects(request Request) bool {
	given := rule.rule
	if !rule.isOf(request) ||
		given.Kind != 0 && given.Kind != request.Kind ||
		request.Flags&given.Flags != given.Flags ||
		rule.names != nil && !matchesAny(rule.names, request.Path, request.NewPath) {
		return false
	}
	selected := true
	if given.When != nil {
		rule.engine.lock.call(func() { selected = given.When(request) })
	}
	return selected
}

// wouldChange reports whether a request would change the tree.
func wouldChange(request Request) bool {
	switch request.Kind {
	case KindWrite, KindSetstat, KindFsetstat, KindRemove, KindMkdir, KindRmdir, KindRename,
		KindPosixRename, KindHardlink:
		return true
	}
	return request.Flags&(OpenFlagWrite|OpenFlagAppend|OpenFlagCreate|OpenFlagTruncate) != 0
}

// matchesAny reports whether one of these paths matches a pattern. An empty path is none.
func matchesAny(pattern []string, paths ...string) bool {
	for _, one := range paths {
		if one != "" && matches(pattern, namesOf(one)) {
			return true
		}
	}
	return false
}

// matches reports whether names match a pattern, name by name.
func matches(pattern, names []string) bool {
	if len(pattern) == 0 {
		return len(names) == 0
	}
	if pattern[0] == "**" {
		for at := 0; at <= len(names); at++ {
			if matches(pattern[1:], names[at:]) {
				return true
			}
		}
		return false
	}
	if len(names) == 0 {
		return false
	}
	fits, err := path.Match(pattern[0], names[0])
	return err == nil && fits && matches(pattern[1:], names[1:])
}

// ruled returns the packet that the library gets: this one, maybe with other ids, or if a rule
// rejects it, a REALPATH with its id to which the library replies with the rule's status. The
// engine's lock is held.
func (engine *Engine) ruled(session uint64, packet []byte) ([]byte, error) {
	request, isRead := engine.requestOf(session, packet)
	if !isRead {
		return packet, nil
	}
	for _, hook := range append([]*Hook(nil), engine.hooks...) {
		if hook.before != nil {
			engine.lock.call(func() { hook.before(request) })
		}
	}
	for _, rule := range append([]*GivenRule(nil), engine.rules...) {
		isRefused, err := rule.judge(request)
		if err != nil {
			return packet, err
		}
		if isRefused {
			path, err := engine.lostBy(rule.rule.Status.Code())
			return refusedPacket(packet, path), err
		}
	}
	for _, rule := range engine.rules {
		packet = rule.rewrite(request, packet)
	}
	return packet, nil
}

// lostBy returns the path for which the library replies to REALPATH with this status.
func (engine *Engine) lostBy(code uint32) (string, error) {
	lost := fmt.Sprintf("%s%d", engine.lost, code)
	if engine.statuses[code] {
		return lost, nil
	}
	rule := C.lt_rule{
		refuse: C.uint64_t(math.MaxUint64),
		kind:   C.LT_KIND_REALPATH,
		status: C.uint32_t(code),
	}
	path := C.CString(lost)
	defer C.free(unsafe.Pointer(path))
	rule.path = C.lt_bytes{(*C.uint8_t)(unsafe.Pointer(path)), C.size_t(len(lost))}
	if _, err := checked(C.lt_refuse(engine.pointer, &rule)); err != nil {
		return "", err
	}
	engine.statuses[code] = true
	return lost, nil
}
