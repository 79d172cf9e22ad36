//go:build cgo && linux && amd64

package lucernetick

import (
	"testing"
	"time"
)

// shownIfFailed is how many calls the log of a failed test has.
const shownIfFailed = 100

// An EngineT is an engine of a test. Its methods are those of the Engine without an error: if one
// fails, the test fails and ends. Use them in the test's goroutine.
type EngineT struct {
	*Engine
	t testing.TB
}

// NewT makes an engine for a test, which closes it at its end. It retains the records of all calls,
// and logs the last ones if the test fails.
func NewT(t testing.TB) *EngineT {
	t.Helper()
	engine, err := New()
	if err != nil {
		t.Fatal(err)
	}
	t.Cleanup(func() {
		engine.lock.Lock()
		calls := engine.shown(shownIfFailed)
		engine.lock.Unlock()
		if t.Failed() {
			t.Log("lucernetick" + calls)
		}
		engine.Close()
	})
	return &EngineT{engine, t}
}

// Check sets a function that returns why clients cannot be served, as Err of a server, or nil. The
// engine's methods report its error. It must not use the engine.
func (engine *EngineT) Check(check func() error) {
	engine.lock.Lock()
	defer engine.lock.Unlock()
	engine.check = check
}

// stopped returns why clients cannot be served, or nil. The lock is held.
func (engine *Engine) stopped() error {
	if engine.check == nil {
		return nil
	}
	return engine.check()
}

// must ends the test if there is an error.
func (engine *EngineT) must(err error) {
	engine.t.Helper()
	engine.lock.Lock()
	stopped := engine.stopped()
	engine.lock.Unlock()
	if stopped != nil {
		engine.t.Fatal(stopped)
	}
	if err != nil {
		engine.t.Fatal(err)
	}
}

// Connect is Engine.Connect. The connection is closed at the end of the test.
func (engine *EngineT) Connect(clock Clock) *Conn {
	engine.t.Helper()
	return engine.ConnectWith(clock, Faults{})
}

// ConnectWith is Engine.ConnectWith. The connection is closed at the end of the test.
func (engine *EngineT) ConnectWith(clock Clock, faults Faults) *Conn {
	engine.t.Helper()
	conn, err := engine.Engine.ConnectWith(clock, faults)
	engine.must(err)
	engine.t.Cleanup(func() { conn.Drop() })
	return conn
}

// WriteFiles is Engine.WriteFiles.
func (engine *EngineT) WriteFiles(files map[string][]byte, moment time.Time) {
	engine.t.Helper()
	engine.must(engine.Engine.WriteFiles(files, moment))
}

// Snapshot is Engine.Snapshot.
func (engine *EngineT) Snapshot() Snapshot {
	engine.t.Helper()
	tree, err := engine.Engine.Snapshot()
	engine.must(err)
	return tree
}

// Calls is Engine.Calls.
func (engine *EngineT) Calls() []Call {
	engine.t.Helper()
	calls, err := engine.Engine.Calls()
	engine.must(err)
	return calls
}

// Refuse is Engine.Refuse.
func (engine *EngineT) Refuse(rule Rule) *GivenRule {
	engine.t.Helper()
	given, err := engine.Engine.Refuse(rule)
	engine.must(err)
	return given
}

// DiskFull is Engine.DiskFull.
func (engine *EngineT) DiskFull(after uint64) *GivenRule {
	engine.t.Helper()
	given, err := engine.Engine.DiskFull(after)
	engine.must(err)
	return given
}

// ReadOnly is Engine.ReadOnly.
func (engine *EngineT) ReadOnly(path string) *GivenRule {
	engine.t.Helper()
	given, err := engine.Engine.ReadOnly(path)
	engine.must(err)
	return given
}

// EnforcePermissions is Engine.EnforcePermissions.
func (engine *EngineT) EnforcePermissions(session uint64, uid, gid uint32) *GivenRule {
	engine.t.Helper()
	given, err := engine.Engine.EnforcePermissions(session, uid, gid)
	engine.must(err)
	return given
}

// SetAttributes is Engine.SetAttributes.
func (engine *EngineT) SetAttributes(path string, attributes Attributes, moment time.Time) {
	engine.t.Helper()
	engine.must(engine.Engine.SetAttributes(path, attributes, moment))
}

// OnCall is Engine.OnCall.
func (engine *EngineT) OnCall(before func(Request), after func(Call)) *Hook {
	engine.t.Helper()
	hook, err := engine.Engine.OnCall(before, after)
	engine.must(err)
	return hook
}

// WaitFor is Engine.WaitFor.
func (engine *EngineT) WaitFor(path string, timeout time.Duration) Entry {
	engine.t.Helper()
	entry, err := engine.Engine.WaitFor(path, timeout)
	engine.must(err)
	return entry
}

// WaitForCall is Engine.WaitForCall.
func (engine *EngineT) WaitForCall(filter Filter, timeout time.Duration) Call {
	engine.t.Helper()
	call, err := engine.Engine.WaitForCall(filter, timeout)
	engine.must(err)
	return call
}
