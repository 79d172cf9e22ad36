package lucernetick

import (
	"encoding/binary"
	"errors"
	"math"
	"os"
	"strconv"
	"strings"
	"testing"
	"time"
)

// lines are those of the table, word by word.
func lines(t *testing.T) [][]string {
	t.Helper()
	data, err := os.ReadFile("testdata/permissions.txt")
	must(t, err)
	var found [][]string
	for _, line := range strings.Split(string(data), "\n") {
		if line != "" && !strings.HasPrefix(line, "#") {
			found = append(found, strings.Fields(line))
		}
	}
	return found
}

func numberOf(t *testing.T, word string, base int) uint32 {
	t.Helper()
	value, err := strconv.ParseInt(word, base, 64)
	must(t, err)
	return uint32(value)
}

// permitted makes the tree of the table.
func permitted(t *testing.T) *Engine {
	t.Helper()
	engine := newEngine(t)
	for _, words := range lines(t) {
		if words[0] != "tree" {
			continue
		}
		var contents []byte
		if words[2] == "f" {
			contents = []byte("1")
		}
		must(t, engine.WriteFiles(map[string][]byte{words[1]: contents}, time.Time{}))
		must(t, engine.SetAttributes(words[1], Attributes{
			Given: 6, Permissions: numberOf(t, words[3], 8),
			UID: numberOf(t, words[4], 10), GID: numberOf(t, words[5], 10),
		}, time.Time{}))
	}
	return engine
}

// replyTo returns the body of the reply to a request.
func replyTo(t *testing.T, session *Session, kind byte, parts ...[]byte) []byte {
	t.Helper()
	must(t, session.Feed(packet(kind, append([][]byte{number(1)}, parts...)...)))
	_, err := session.Settle(at(0), 1000)
	must(t, err)
	taken, err := session.Take()
	must(t, err)
	return taken[4:]
}

// codeOf returns the code of a status, and 0 for other replies.
func codeOf(reply []byte) uint32 {
	if reply[0] != 101 {
		return 0
	}
	return binary.BigEndian.Uint32(reply[5:])
}

func pflags(letters string) []byte {
	var flags uint32
	for _, letter := range strings.Trim(letters, "-") {
		flags |= 1 << strings.IndexRune("rwactx", letter)
	}
	return number(flags)
}

// attributesIn returns attributes as SETSTAT has them.
func attributesIn(t *testing.T, words string) []byte {
	t.Helper()
	var flags uint32
	var size, fields []byte
	for _, word := range strings.Split(strings.Trim(words, "-"), ",") {
		name, value, _ := strings.Cut(word, "=")
		switch name {
		case "size":
			flags |= givenSize
			size = binary.BigEndian.AppendUint64(nil, uint64(numberOf(t, value, 10)))
		case "ids":
			flags |= givenOwner
			uid, gid, _ := strings.Cut(value, ":")
			fields = append(fields, number(numberOf(t, uid, 10))...)
			fields = append(fields, number(numberOf(t, gid, 10))...)
		case "mode":
			flags |= givenPermissions
			fields = append(fields, number(numberOf(t, value, 8))...)
		case "times":
			flags |= givenTimes
			fields = append(fields, number(numberOf(t, value, 10))...)
			fields = append(fields, number(numberOf(t, value, 10))...)
		}
	}
	return append(append(number(flags), size...), fields...)
}

// requestIn returns the code of the reply to a request of the table.
func requestIn(t *testing.T, session *Session, kind string, words ...string) uint32 {
	t.Helper()
	kinds := map[string]Kind{
		"STAT": KindStat, "LSTAT": KindLstat, "OPENDIR": KindOpendir, "REALPATH": KindRealpath,
		"MKDIR": KindMkdir, "REMOVE": KindRemove, "RMDIR": KindRmdir, "RENAME": KindRename,
	}
	extended := map[string]string{
		"POSIX_RENAME": "posix-rename@openssh.com", "HARDLINK": "hardlink@openssh.com",
	}
	var paths []byte
	for _, word := range words {
		paths = append(paths, text([]byte(word))...)
	}
	switch {
	case kind == "OPEN" || kind == "FSETSTAT":
		path := text([]byte(words[1]))
		opened := replyTo(t, session, byte(KindOpen), path, pflags(words[0]), number(0))
		if kind == "OPEN" {
			return codeOf(opened)
		}
		return codeOf(replyTo(t, session, byte(KindFsetstat), opened[5:], attributesIn(t, words[2])))
	case kind == "SETSTAT":
		path := text([]byte(words[0]))
		return codeOf(replyTo(t, session, byte(KindSetstat), path, attributesIn(t, words[1])))
	case extended[kind] != "":
		return codeOf(replyTo(t, session, 200, text([]byte(extended[kind])), paths))
	}
	return codeOf(replyTo(t, session, byte(kinds[kind]), paths, number(0)))
}

var results = map[string]uint32{"ok": 0, "missing": 2, "denied": 3, "failure": 4}

func TestPermissions(t *testing.T) {
	count := 0
	for _, words := range lines(t) {
		if words[0] == "tree" || words[0] == "change" {
			continue
		}
		count++
		t.Run(strings.Join(words, " "), func(t *testing.T) {
			engine := permitted(t)
			session := asker(t, engine)
			before, err := engine.Snapshot()
			must(t, err)
			rule, err := engine.EnforcePermissions(
				0, numberOf(t, words[0], 10), numberOf(t, words[1], 10))
			must(t, err)
			last := len(words) - 1
			code := requestIn(t, session, words[2], words[3:last]...)
			same(t, code, results[words[last]])
			same(t, rule.Refused() == 1, words[last] == "denied")
			after, err := engine.Snapshot()
			must(t, err)
			if code != 0 && words[2] != "FSETSTAT" {
				same(t, after, before)
			}
		})
	}
	if count < 100 {
		t.Fatalf("%d cases", count)
	}
}

func TestPermissionsFollowEachChange(t *testing.T) {
	engine := permitted(t)
	other, session := asker(t, engine), asker(t, engine)
	_, err := engine.EnforcePermissions(session.Number(), 1000, 100)
	must(t, err)
	count := 0
	for _, words := range lines(t) {
		if words[0] != "change" {
			continue
		}
		count++
		change, request, _ := strings.Cut(strings.Join(words[1:], " "), " : ")
		changes, asks := strings.Fields(change), strings.Fields(request)
		same(t, requestIn(t, other, changes[0], changes[1:]...), uint32(0))
		last := len(asks) - 1
		if code := requestIn(t, session, asks[0], asks[1:last]...); code != results[asks[last]] {
			t.Errorf("%v: %d", words, code)
		}
	}
	same(t, count > 10, true)
}

// Whatever ids it sends. The other attributes stay.
func TestWhatAClientCreatesIsItsOwn(t *testing.T) {
	engine := permitted(t)
	session := asker(t, engine)
	_, err := engine.EnforcePermissions(session.Number(), 1000, 100)
	must(t, err)
	path := text([]byte("/pub/new"))
	for _, given := range []string{"-", "ids=5:6", "size=3,ids=0:0,mode=0600"} {
		for _, kind := range []Kind{KindMkdir, KindOpen} {
			flags, remove, mode := []byte(nil), KindRmdir, uint32(0o755)
			if kind == KindOpen {
				flags, remove, mode = pflags("wc"), KindRemove, 0o644
			}
			if strings.Contains(given, "mode") {
				mode = 0o600
			}
			made := replyTo(t, session, byte(kind), path, flags, attributesIn(t, given))
			same(t, codeOf(made), uint32(0))
			tree, err := engine.Snapshot()
			must(t, err)
			found := tree["/pub/new"]
			same(t, []uint32{found.UID, found.GID, found.Permissions()}, []uint32{1000, 100, mode})
			same(t, codeOf(replyTo(t, session, byte(remove), path)), uint32(0))
		}
	}
}

// Each of both, of root too.
func TestAnIDThatStays(t *testing.T) {
	engine := permitted(t)
	session := asker(t, engine)
	for _, one := range []struct {
		uid, gid uint32
		given    string
		wanted   []uint32
	}{
		{1000, 100, "ids=-1:100", []uint32{1000, 100}},
		{1000, 100, "ids=1000:-1", []uint32{1000, 100}},
		{0, 0, "ids=7:-1,mode=0600", []uint32{7, 100}},
		{0, 0, "ids=-1:8", []uint32{7, 8}},
	} {
		rule, err := engine.EnforcePermissions(0, one.uid, one.gid)
		must(t, err)
		same(t, requestIn(t, session, "SETSTAT", "/home/ann/f", one.given), uint32(0))
		rule.End()
		tree, err := engine.Snapshot()
		must(t, err)
		same(t, []uint32{tree["/home/ann/f"].UID, tree["/home/ann/f"].GID}, one.wanted)
	}
}

func TestAHandleKeepsItsPermissions(t *testing.T) {
	engine := permitted(t)
	session := asker(t, engine)
	_, err := engine.EnforcePermissions(0, 1000, 100)
	must(t, err)
	path := text([]byte("/home/ann/f"))
	opened := replyTo(t, session, byte(KindOpen), path, pflags("rw"), number(0))
	must(t, engine.SetAttributes("/home/ann/f", Attributes{Given: 4}, time.Time{}))
	must(t, engine.SetAttributes("/home/ann", Attributes{Given: 4}, time.Time{}))
	start := make([]byte, 8)
	wrote := replyTo(t, session, byte(KindWrite), opened[5:], start, text([]byte("22")))
	same(t, codeOf(wrote), uint32(0))
	got := replyTo(t, session, byte(KindRead), opened[5:], start, number(9))
	same(t, string(got[5:]), string(text([]byte("22"))))
	same(t, requestIn(t, session, "OPEN", "r", "/home/ann/f"), uint32(3))
}

// The rule of each ends with its session.
func TestSessionsOfDifferentUsers(t *testing.T) {
	engine := permitted(t)
	ann, bob, root := asker(t, engine), asker(t, engine), asker(t, engine)
	for _, one := range []struct {
		session *Session
		uid     uint32
	}{{ann, 1000}, {bob, 2000}} {
		_, err := engine.EnforcePermissions(one.session.Number(), one.uid, 100)
		must(t, err)
	}
	for _, one := range []struct {
		session *Session
		code    uint32
	}{{bob, 3}, {root, 0}, {ann, 2}} {
		same(t, requestIn(t, one.session, "REMOVE", "/home/ann/f"), one.code)
	}
	must(t, bob.Close())
	same(t, requestIn(t, ann, "STAT", "/home"), uint32(0))
	same(t, len(engine.rules), 1)
}

// The client's root is where it begins. That itself is searched.
func TestDirectoriesAboveARootNeedNoPermission(t *testing.T) {
	engine := permitted(t)
	session, err := engine.OpenAt("/home/ann")
	must(t, err)
	must(t, session.Feed([]byte(looks[:9])))
	_, err = session.Settle(at(0), 10)
	must(t, err)
	_, err = session.Take()
	must(t, err)
	must(t, engine.SetAttributes("/home", Attributes{Given: 4}, time.Time{}))
	rule, err := engine.EnforcePermissions(0, 1000, 100)
	must(t, err)
	same(t, requestIn(t, session, "OPEN", "r", "/f"), uint32(0))
	same(t, requestIn(t, session, "MKDIR", "/new"), uint32(0))
	same(t, requestIn(t, session, "REMOVE", "/"), uint32(4))
	rule.End()
	_, err = engine.EnforcePermissions(0, 2000, 100)
	must(t, err)
	same(t, requestIn(t, session, "OPEN", "r", "/f"), uint32(3))
}

func TestAttributesOfAPath(t *testing.T) {
	engine := newEngine(t)
	must(t, engine.WriteFiles(map[string][]byte{"/f": []byte("123")}, at(5)))
	must(t, engine.SetAttributes("f", Attributes{
		Given: 14, UID: 6, GID: 7, Permissions: 0o600, Atime: at(8), Mtime: at(9),
	}, time.Time{}))
	must(t, engine.SetAttributes("/f", Attributes{}, time.Time{}))
	find := func() Entry {
		tree, err := engine.Snapshot()
		must(t, err)
		return tree["/f"]
	}
	found := find()
	same(t, []uint32{found.UID, found.GID, found.Mode}, []uint32{6, 7, 0o100600})
	same(t, []time.Time{found.Atime, found.Mtime}, []time.Time{at(8), at(9)})
	must(t, engine.SetAttributes("/f", Attributes{Given: 1, Size: 2}, at(11)))
	found = find()
	same(t, string(found.Contents()), "12")
	same(t, found.Mtime, at(11))
	for path, says := range map[string]string{"/none": "No such file", "/": "Failure"} {
		var status *StatusError
		err := engine.SetAttributes(path, Attributes{Given: 4}, time.Time{})
		if !errors.As(err, &status) || status.Message != says {
			t.Errorf("%s: %v", path, err)
		}
	}
	same(t, errors.Is(engine.SetAttributes("", Attributes{}, time.Time{}), ErrBadPath), true)
}

func TestUsersAndAttributesThatAreRejected(t *testing.T) {
	engine := newEngine(t)
	_, first := engine.EnforcePermissions(0, math.MaxUint32, 0)
	_, second := engine.EnforcePermissions(0, 0, math.MaxUint32)
	for says, err := range map[string]error{
		"uid must be from 0 to 4294967294, not 4294967295": first,
		"gid must be from 0 to 4294967294":                 second,
		"Given must have no bits but 0xf, not 0x10": engine.SetAttributes("/f",
			Attributes{Given: 16}, at(0)),
		"Mtime must be from 1970": engine.SetAttributes("/f",
			Attributes{Given: 8, Mtime: at(-1)}, at(0)),
	} {
		if err == nil || !strings.Contains(err.Error(), says) {
			t.Errorf("%q: %v", says, err)
		}
	}
	must(t, engine.Close())
	_, err := engine.EnforcePermissions(0, 0, 0)
	same(t, err, error(ErrBadPointer))
}
