package lucernetick

import (
	"errors"
	"fmt"
	"runtime"
	"strings"
	"testing"
	"time"
)

// A recorder is a test that may fail.
type recorder struct {
	testing.TB
	said     string
	logged   string
	cleanups []func()
}

func (test *recorder) Helper()                  {}
func (test *recorder) Cleanup(action func())    { test.cleanups = append(test.cleanups, action) }
func (test *recorder) Failed() bool             { return test.said != "" }
func (test *recorder) Log(words ...interface{}) { test.logged += fmt.Sprint(words...) }

func (test *recorder) Fatal(words ...interface{}) {
	test.said = fmt.Sprint(words...)
	runtime.Goexit()
}

// failed returns what a test says that fails, and its log.
func failed(t *testing.T, action func(engine *EngineT)) (string, string) {
	t.Helper()
	test := &recorder{TB: t}
	done := make(chan bool)
	var engine *EngineT
	go func() {
		defer close(done)
		engine = NewT(test)
		action(engine)
	}()
	<-done
	for _, action := range test.cleanups {
		action()
	}
	same(t, engine.Close(), nil)
	_, err := engine.Open()
	same(t, err, ErrBadPointer)
	return test.said, test.logged
}

func TestATestThatFails(t *testing.T) {
	for says, action := range map[string]func(engine *EngineT){
		"": func(engine *EngineT) { engine.Connect(time.Now) },
		"lucernetick: no request has this kind: kind 1": func(engine *EngineT) {
			engine.Refuse(Rule{Kind: 1})
		},
		"lucernetick: MKDIR /a: Failure": func(engine *EngineT) {
			engine.WriteFiles(map[string][]byte{"/a": {}}, at(0))
			engine.WriteFiles(map[string][]byte{"/a/b": {}}, at(0))
		},
		"lucernetick: no such call within 0s: i/o timeout; no client made a call": func(engine *EngineT) {
			engine.WaitForCall(Filter{}, 0)
		},
		"stopped": func(engine *EngineT) {
			engine.Check(func() error { return errors.New("stopped") })
			engine.Snapshot()
		},
	} {
		said, logged := failed(t, action)
		same(t, said, says)
		same(t, logged != "", says != "")
	}
}

func TestTheLogOfATestThatFails(t *testing.T) {
	_, logged := failed(t, func(engine *EngineT) {
		engine.WriteFiles(map[string][]byte{"/a": nil}, at(7))
		engine.Refuse(Rule{Kind: 1})
	})
	begins := strings.HasPrefix(logged, "lucernetick; the last calls:\n  session 1 call 1 at 7: ")
	same(t, begins && strings.HasSuffix(logged, ` at 7: mkdir "/a" -> Success`), true)
}
