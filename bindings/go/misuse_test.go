package lucernetick

import (
	"errors"
	"strings"
	"testing"
	"time"
)

// files writes one file.
func files(path string) error {
	_, err := FromFiles(map[string][]byte{path: []byte("1")}, at(0))
	return err
}

// caught returns what an action panics with.
func caught(action func()) (err error) {
	defer func() { err, _ = recover().(error) }()
	action()
	return nil
}

// connected returns the error of a connection with faults.
func connected(faults Faults) error {
	engine, err := New()
	if err == nil {
		defer engine.Close()
		_, err = engine.ConnectWith(nil, faults)
	}
	return err
}

// Wrong arguments, and what the errors say: argument, value and reason.
var misuses = []struct {
	what string
	does func(engine *Engine) error
	says string
}{
	{"a path with a NUL", func(*Engine) error { return files("/a\x00b") },
		`not a path: "/a\x00b" has a NUL byte`},
	{"a long name", func(*Engine) error { return files("/" + strings.Repeat("a", 256)) },
		`has a name of 256 bytes, and at most 255 are allowed`},
	{"a long path", func(*Engine) error { return files(strings.Repeat("/aaaaa", 1000)) },
		`it has 6000 bytes, and at most 4096 are allowed`},
	{"no path", func(*Engine) error { return files("") }, `it is empty, and / is the root`},
	{"the root as a file", func(*Engine) error { return files("/a/..") },
		`"/a/.." is the root, whose contents must be nil`},
	{"a file below a file", func(*Engine) error {
		_, err := FromFiles(map[string][]byte{"/f": {}, "/f/g": {}}, at(0))
		return err
	}, `"/f/g" is below "/f", which is a file`},
	{"a time before 1970", func(*Engine) error {
		_, err := FromFiles(nil, at(-1))
		return err
	}, "moment must be from 1970-01-01 00:00:00 +0000 UTC to 2106-02-07 06:28:15"},
	{"a time that does not fit", func(*Engine) error {
		_, err := FromFiles(nil, at(1<<32+7))
		return err
	}, "not 2106-02-07 06:28:23"},
	{"a closed engine", func(engine *Engine) error {
		engine.Close()
		_, err := engine.Snapshot()
		return err
	}, "lucernetick: the engine was closed"},
	{"a negative cut", func(*Engine) error { return connected(Faults{CutAfter: -1}) },
		"CutAfter must be from 0 to"},
	{"a negative count", func(engine *Engine) error {
		session, err := engine.Open()
		return firstOf(err, session.Sent(-1))
	}, "count must be from 0 to 9223372036854775807, not -1"},
	{"many clients", func(*Engine) error { return caught(func() { NewRaces(1, 1000) }) },
		"clients must be from 1 to 256, not 1000"},
	{"a text that is no schedule", func(*Engine) error {
		return caught(func() { ReplayRaces("1 b", 2) })
	}, `schedule must be as 1x4 2 1x2, and "b" is not`},
	{"two clients of a race in one goroutine", func(*Engine) error {
		races := NewRaces(1, 2)
		defer races.Close()
		conn, err := races.Connect()
		if err == nil {
			_, err = conn.Write([]byte(makes))
		}
		if err == nil {
			_, err = conn.Read(make([]byte, 1))
		}
		return err
	}, "first call Connect for all of them"},
	{"a kind without flags", func(engine *Engine) error {
		_, err := engine.Refuse(Rule{Kind: KindMkdir, Flags: OpenFlagWrite})
		return err
	}, "Flags needs KindOpen, not mkdir"},
	{"a pattern that is not closed", func(engine *Engine) error {
		_, err := engine.Refuse(Rule{Path: "/[a"})
		return err
	}, `not a path: "/[a": syntax error in pattern`},
	{"a call that no record has", func(engine *Engine) error {
		_, err := engine.WaitForCall(Filter{Kind: KindLstat}, 0)
		return err
	}, "no record has the lstat"},
	{"calls that were dropped", func(*Engine) error {
		engine, err := NewKeeping(1)
		if err == nil {
			defer engine.Close()
			err = engine.WriteFiles(map[string][]byte{"/a": {}, "/b": {}}, at(0))
		}
		if err == nil {
			_, err = engine.Calls()
		}
		return err
	}, "3 calls were dropped, since the engine keeps the last 1"},
}

func TestMisuse(t *testing.T) {
	for _, one := range misuses {
		begin := time.Now()
		err := one.does(newEngine(t))
		if err == nil || !strings.Contains(err.Error(), one.says) {
			t.Errorf("%s: wanted %q, got %v", one.what, one.says, err)
		}
		if passed := time.Since(begin); passed > 20*time.Second {
			t.Errorf("%s: took %v", one.what, passed)
		}
	}
}

// A WRITE has a handle, which was opened with a path.
func TestAWriteIsRejectedByItsPath(t *testing.T) {
	engine := NewT(t)
	rule := engine.Refuse(Rule{Kind: KindWrite, Path: "/f"})
	client := connect(t, engine.Engine, time.Now)
	file, err := client.Create("/f")
	must(t, err)
	_, err = file.Write([]byte("1"))
	same(t, err != nil && rule.Refused() == 1, true)
	same(t, errors.Is(file.Close(), nil), true)
}
