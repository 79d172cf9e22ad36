package lucernetick

import (
	"bytes"
	"errors"
	"fmt"
	"testing"
	"time"
)

// alike returns an engine with two files of two names each and one file of one name. They differ
// only in their names: their atimes are 5, their mtimes 9.
func alike(t *testing.T) *Engine {
	t.Helper()
	same := []byte("same")
	engine, err := FromFiles(map[string][]byte{"/a": same, "/b": same, "/d/e": same}, at(77))
	must(t, err)
	t.Cleanup(func() { engine.Close() })
	must(t, engine.Link("/b", "/c", at(77)))
	must(t, engine.Link("/a", "/d/a", at(77)))
	for _, path := range []string{"/a", "/b", "/d/e"} {
		set(t, engine, path, append(number(8), append(number(5), number(9)...)...))
	}
	return engine
}

var alikeNumbers = map[string]int{"/": 0, "/a": 1, "/b": 2, "/c": 2, "/d": 0, "/d/a": 1, "/d/e": 3}

// numbersOf returns the numbers of the files of a snapshot.
func numbersOf(found map[string]Entry) map[string]int {
	numbers := map[string]int{}
	for path, entry := range found {
		numbers[path] = entry.File
	}
	return numbers
}

// snapshot returns a snapshot, which must not fail.
func snapshot(t *testing.T, engine *Engine) Snapshot {
	t.Helper()
	found, err := engine.Snapshot()
	must(t, err)
	return found
}

// asker returns a session after VERSION.
func asker(t *testing.T, engine *Engine) *Session {
	t.Helper()
	session := open(t, engine, looks[:9])
	_, err := session.Turn(at(0))
	must(t, err)
	must(t, session.Sent(version))
	return session
}

// look returns the server's replies to STAT of all paths of alike.
func look(session *Session) (map[string]string, error) {
	told := map[string]string{}
	for path := range alikeNumbers {
		if err := session.Feed(packet(packetStat, number(1), text([]byte(path)))); err != nil {
			return nil, err
		}
		if _, err := session.Settle(at(900), 1000); err != nil {
			return nil, err
		}
		output, err := session.Output()
		if err != nil {
			return nil, err
		}
		told[path] = string(output)
		if err := session.Sent(len(output)); err != nil {
			return nil, err
		}
		if output[4] != replyAttrs {
			return nil, fmt.Errorf("a reply of type %d", output[4])
		}
	}
	return told, nil
}

func lookedAt(t *testing.T, session *Session) map[string]string {
	t.Helper()
	told, err := look(session)
	must(t, err)
	return told
}

func TestATreeThatBeginsWithLinks(t *testing.T) {
	engine, err := FromFiles(map[string][]byte{"/a": []byte("one"), "/b": []byte("two")}, at(77))
	must(t, err)
	defer engine.Close()
	for _, names := range [][2]string{{"/a", "/d/a"}, {"d/a", "/d/c"}, {"/b", "/e/f/b"}} {
		must(t, engine.Link(names[0], names[1], at(77)))
	}
	found := snapshot(t, engine)
	wanted := map[string]int{
		"/": 0, "/a": 1, "/b": 2, "/d": 0, "/d/a": 1, "/d/c": 1, "/e": 0, "/e/f": 0, "/e/f/b": 2,
	}
	same(t, numbersOf(found), wanted)
	same(t, string(found["/d/c"].Contents())+string(found["/e/f/b"].Contents()), "onetwo")
	for _, entry := range found {
		same(t, entry.Mtime, at(77))
	}
}

func TestFilesThatLookAlike(t *testing.T) {
	engine := alike(t)
	for count := 0; count < 20; count++ {
		same(t, numbersOf(snapshot(t, engine)), alikeNumbers)
	}
}

func TestASnapshotLeavesAllAttributes(t *testing.T) {
	engine := alike(t)
	session := asker(t, engine)
	before := lookedAt(t, session)
	found := snapshot(t, engine)
	same(t, lookedAt(t, session), before)
	for _, path := range []string{"/a", "/b", "/c", "/d/a", "/d/e"} {
		same(t, []time.Time{found[path].Atime, found[path].Mtime}, []time.Time{at(5), at(9)})
	}
}

func TestAllNamesAreOneFile(t *testing.T) {
	engine := alike(t)
	must(t, engine.WriteFiles(map[string][]byte{"/c": []byte("longer than before")}, at(10)))
	found := snapshot(t, engine)
	same(t, found["/b"], found["/c"])
	same(t, found["/a"], found["/d/a"])
	same(t, bytes.Equal(found["/a"].Contents(), found["/b"].Contents()), false)
	must(t, connect(t, engine, time.Now).Remove("/b"))
	left := snapshot(t, engine)
	same(t, left["/c"], found["/c"])
	_, there := left["/b"]
	same(t, there, false)
}

func TestALinkOfAClient(t *testing.T) {
	engine := alike(t)
	client := connect(t, engine, time.Now)
	must(t, client.Link("/d/e", "/f"))
	same(t, snapshot(t, engine)["/f"].File, 3)
	same(t, read(t, client, "/f"), []byte("same"))
}

func TestLinksThatAreRefused(t *testing.T) {
	engine := alike(t)
	for names, code := range map[[2]string]uint32{
		{"/none", "/x"}: 2, {"/d", "/x"}: 4, {"/a", "/b"}: 4,
	} {
		var status *StatusError
		same(t, errors.As(engine.Link(names[0], names[1], at(0)), &status), true)
		same(t, status.Code, code)
		same(t, status.Request, "hardlink@openssh.com "+names[0]+" "+names[1])
	}
	same(t, numbersOf(snapshot(t, engine)), alikeNumbers)
}

// The error names the failed request and its path, and earlier files stay.
func TestTheRequestThatIsRefused(t *testing.T) {
	engine := alike(t)
	var status *StatusError
	must(t, engine.WriteFiles(map[string][]byte{"/x": {}}, at(0)))
	below := map[string][]byte{"/e/f": nil, "/x/y": nil}
	same(t, errors.As(engine.WriteFiles(below, at(0)), &status), true)
	same(t, status.Error(), "lucernetick: MKDIR /x: Failure")
	same(t, errors.As(engine.WriteFiles(map[string][]byte{"/a/b/c": {}}, at(0)), &status), true)
	same(t, status.Error(), "lucernetick: MKDIR /a: Failure")
	_, there := snapshot(t, engine)["/e/f"]
	same(t, there, true)
}
