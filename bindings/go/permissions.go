//go:build cgo && linux && amd64

package lucernetick

import (
	"encoding/binary"
	"errors"
	"strings"
)

// Permissions, and an id that stays as it is.
const (
	mayRead   = 4
	mayWrite  = 2
	maySearch = 1
	sticky    = 0o1000
	keptID    = 1<<32 - 1
)

// EnforcePermissions enforces permission bits as POSIX does, for a client that is this user, of
// this group: that of the session with this number, or all clients for 0. What they deny fails with
// StatusPermissionDenied until the rule ends. The user 0 may do anything.
//
// Each directory of a path needs the permission to search it (x); OPEN and OPENDIR need those to
// read or write. To create, remove, rename or link an entry, its directory needs the permission to
// write, and with the sticky bit the user must own one of them. Only the owner sets permissions and
// times, and only the user 0 another owner. An id of 4294967295 stays as it is. What the client
// creates belongs to this user and group.
//
// Permissions are those at the time when the request is read, and a handle keeps those that it was
// opened with. SetAttributes sets the owner and the mode of a path.
func (engine *Engine) EnforcePermissions(session uint64, uid, gid uint32) (*GivenRule, error) {
	for _, err := range []error{
		checkRange("uid", int64(uid), 0, keptID-1), checkRange("gid", int64(gid), 0, keptID-1),
	} {
		if err != nil {
			return nil, err
		}
	}
	given := Rule{Session: session, Times: Always, Status: StatusPermissionDenied}
	return engine.give(&GivenRule{engine: engine, rule: given, owner: &owner{uid, gid}})
}

// An owner is a user and its group.
type owner struct{ uid, gid uint32 }

// An object is a file or a directory of the tree.
type object struct {
	mode, uid, gid uint32
	isDir          bool
}

// A place is a path: its object, and the directory that has its last name. Each may be nil.
type place struct {
	parent    *object
	directory []string
	found     *object
}

// may reports whether a user has these permissions. Those of its own class count, and no others.
func (user owner) may(found *object, bits uint32) bool {
	mode := found.mode
	if found.uid == user.uid {
		mode >>= 6
	} else if found.gid == user.gid {
		mode >>= 3
	}
	return mode&bits == bits
}

// mayChange reports whether a user may add an entry to the directory.
func (user owner) mayChange(at place) bool {
	return at.parent == nil || user.may(at.parent, mayWrite)
}

// mayRemove reports whether a user may remove or replace the entry. With the sticky bit, only the
// owner of the entry or of the directory may.
func (user owner) mayRemove(at place) bool {
	if at.parent == nil || at.found == nil || at.parent.mode&sticky == 0 {
		return user.mayChange(at)
	}
	return user.mayChange(at) && (user.uid == at.parent.uid || user.uid == at.found.uid)
}

func (user owner) mayOpen(at place, flags OpenFlag) bool {
	has := func(flag OpenFlag) bool { return flags&flag != 0 }
	isChanged := has(OpenFlagWrite) || has(OpenFlagCreate)
	switch {
	case at.found == nil:
		return !has(OpenFlagCreate) || user.mayChange(at)
	case has(OpenFlagCreate) && has(OpenFlagExcl), at.found.isDir && isChanged:
		return true // The server rejects it.
	case !has(OpenFlagWrite):
		return user.may(at.found, mayRead)
	case !has(OpenFlagRead):
		return user.may(at.found, mayWrite)
	}
	return user.may(at.found, mayRead|mayWrite)
}

// maySet reports whether a user may set attributes. Owners set permissions and times, and their own
// group. The size needs a permission, or a file that is open for writing.
func (user owner) maySet(found *object, given Attributes, isOpen bool) bool {
	if given.Given&givenSize != 0 && !isOpen && !user.may(found, mayWrite) {
		return false
	}
	uid, gid := uint32(keptID), uint32(keptID)
	if given.Given&givenOwner != 0 {
		uid, gid = given.UID, given.GID
	}
	if uid == keptID && gid == keptID && given.Given&(givenPermissions|givenTimes) == 0 {
		return true
	}
	return found.uid == user.uid && (uid == keptID || uid == found.uid) &&
		(gid == keptID || gid == found.gid || gid == user.gid)
}

// mayRename reports whether a user may rename. A directory that moves to another parent changes
// itself: its entry "..".
func (user owner) mayRename(old, new place) bool {
	isChanged := old.found.isDir && compareNames(old.directory, new.directory) != 0
	return user.mayRemove(old) && user.mayRemove(new) &&
		(!isChanged || user.may(old.found, mayWrite))
}

var (
	errDenied      = errors.New("a directory must not be searched")
	errUnreachable = errors.New("a directory is missing, or is a file: the server replies so")
)

// permissions are those of a user in a snapshot. The client sees the directory top as "/".
type permissions struct {
	user owner
	tree taken
	top  []string
}

// deny reports whether the user may not do this.
func (check permissions) deny(request Request) (bool, error) {
	allowed, err := check.allow(request)
	switch err {
	case errUnreachable:
		return false, nil
	case errDenied:
		return true, nil
	}
	return !allowed, err
}

func (check permissions) allow(request Request) (bool, error) {
	user, kind := check.user, request.Kind
	if kind == KindFsetstat {
		held, err := check.tree.object(namesOf(request.Path))
		isMissing := held == nil || request.Path == ""
		return isMissing || user.maySet(held, request.Attributes, true), err
	}
	at, err := check.reach(request.Path)
	if err != nil {
		return false, err
	}
	if kind.isByTwoPaths() {
		return check.allowBoth(kind, at, request.NewPath)
	}
	switch {
	case kind == KindOpen:
		return user.mayOpen(at, request.Flags), nil
	case at.found == nil:
		return kind != KindMkdir || user.mayChange(at), nil
	case kind == KindSetstat:
		return user.maySet(at.found, request.Attributes, false), nil
	case kind == KindOpendir:
		return user.may(at.found, mayRead), nil
	}
	return kind != KindRemove && kind != KindRmdir || user.mayRemove(at), nil
}

func (check permissions) allowBoth(kind Kind, old place, path string) (bool, error) {
	if old.found == nil {
		return true, nil
	}
	new, err := check.reach(path)
	if err != nil {
		return false, err
	}
	if kind == KindHardlink {
		return new.found != nil || check.user.mayChange(new), nil
	}
	return check.user.mayRename(old, new), nil
}

// reach returns the place of a path. Each directory on the way needs the permission to search it.
func (check permissions) reach(path string) (place, error) {
	names := namesOf(path)
	at := place{}
	for depth := len(check.top); depth < len(names); depth++ {
		parent, err := check.tree.object(names[:depth])
		switch {
		case err != nil:
			return place{}, err
		case parent == nil || !parent.isDir:
			return place{}, errUnreachable
		case !check.user.may(parent, maySearch):
			return place{}, errDenied
		}
		at.parent, at.directory = parent, names[:depth]
	}
	found, err := check.tree.object(names)
	at.found = found
	return at, err
}

// needsPermission reports whether requests of this kind do. A handle was opened with permissions.
func (kind Kind) needsPermission() bool {
	return kind.isByPath() && kind != KindRealpath || kind == KindFsetstat
}

// treeNow returns a snapshot with the names and attributes of now. The lock is held.
func (engine *Engine) treeNow() (taken, error) {
	if engine.modes == nil {
		tree, err := engine.take()
		if err != nil {
			return taken{}, err
		}
		engine.modes = &tree
	}
	return *engine.modes, nil
}

func (engine *Engine) dropModes() {
	if engine.modes != nil {
		engine.modes.free()
		engine.modes = nil
	}
}

// shapes reports whether names or attributes may be others after this call.
func (call Call) shapes() bool {
	switch call.Kind {
	case KindSetstat, KindFsetstat, KindMkdir, KindRmdir, KindRemove, KindRename, KindPosixRename,
		KindHardlink:
		return true
	}
	return call.Flags&OpenFlagCreate != 0
}

// denies reports whether permissions deny a request. The lock is held.
func (rule *GivenRule) denies(request Request) (bool, error) {
	if rule.owner.uid == 0 || !request.Kind.needsPermission() {
		return false, nil
	}
	tree, err := rule.engine.treeNow()
	if err != nil {
		return false, err
	}
	top := rule.engine.inputs[request.Session].root
	return permissions{*rule.owner, tree, top}.deny(request)
}

// rewrite returns the packet of a request that no rule rejects. The user owns what it creates.
func (rule *GivenRule) rewrite(request Request, packet []byte) []byte {
	isNew := request.Kind == KindOpen || request.Kind == KindMkdir
	if rule.owner == nil || !isNew || !rule.isOf(request) {
		return packet
	}
	return withIDs(packet, *rule.owner)
}

// withIDs returns an OPEN or MKDIR with these ids in its attributes. Its fields are valid.
func withIDs(packet []byte, ids owner) []byte {
	rest := fields{rest: packet[headBytes:]}
	rest.text()
	if Kind(packet[lengthBytes]) == KindOpen {
		rest.uint32()
	}
	body := append([]byte(nil), packet[lengthBytes:len(packet)-len(rest.rest)]...)
	flags := rest.uint32()
	body = binary.BigEndian.AppendUint32(body, flags|givenOwner)
	if flags&givenSize != 0 {
		body = append(body, rest.take(8)...)
	}
	if flags&givenOwner != 0 {
		rest.take(8)
	}
	body = binary.BigEndian.AppendUint32(body, ids.uid)
	body = binary.BigEndian.AppendUint32(body, ids.gid)
	return appendText(nil, append(body, rest.rest...))
}

// compareNames compares paths in the order of the tree.
func compareNames(one, other []string) int {
	for at := 0; at < len(one) && at < len(other); at++ {
		if order := strings.Compare(one[at], other[at]); order != 0 {
			return order
		}
	}
	return len(one) - len(other)
}
