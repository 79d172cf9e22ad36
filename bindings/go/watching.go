//go:build cgo && linux && amd64

package lucernetick

import (
	"errors"
	"fmt"
	"os"
	"time"
)

// errWaits is returned if a callback waits for clients, which the engine does not serve meanwhile.
var errWaits = errors.New("lucernetick: a callback must not wait for a client")

// A Hook is the callbacks of OnCall. They are called until its End.
type Hook struct {
	engine *Engine
	before func(Request)
	after  func(Call)
}

// OnCall calls before with each request that is about to be read, and after with the record of each
// call that took effect. Either may be nil.
//
// The engine is locked meanwhile: no other request is served. A callback may call methods of the
// engine in its own goroutine (Snapshot, Refuse), but it must not wait for a client.
func (engine *Engine) OnCall(before func(Request), after func(Call)) (*Hook, error) {
	engine.lock.Lock()
	defer engine.lock.Unlock()
	if engine.pointer == nil {
		return nil, ErrBadPointer
	}
	hook := &Hook{engine, before, after}
	engine.hooks = append(engine.hooks, hook)
	return hook, nil
}

// End ends the callbacks.
func (hook *Hook) End() {
	engine := hook.engine
	engine.lock.Lock()
	defer engine.lock.Unlock()
	for at, one := range engine.hooks {
		if one == hook {
			engine.hooks = append(engine.hooks[:at:at], engine.hooks[at+1:]...)
			return
		}
	}
}

// WaitFor waits until there is a file or a directory at this path, and no handle for writing that
// was opened with this path. It returns its entry. After the timeout the error is
// os.ErrDeadlineExceeded, and has the last calls.
func (engine *Engine) WaitFor(path string, timeout time.Duration) (Entry, error) {
	if err := checkPath(path); err != nil {
		return Entry{}, err
	}
	path = normal(path)
	var found Entry
	changes := uint64(0)
	isNew := true
	err := engine.wait(timeout, "no complete file at "+path, func() (bool, error) {
		if !isNew && changes == engine.changes {
			return false, nil
		}
		isNew, changes = false, engine.changes
		for _, opened := range engine.opened {
			if opened.path == path && opened.flags&OpenFlagWrite != 0 {
				return false, nil
			}
		}
		entry, there, err := engine.find(path)
		found = entry
		return there, err
	})
	return found, err
}

// A Filter selects calls. The zero value selects all.
type Filter struct {
	Session uint64          // its number; 0 is any
	Kind    Kind            // 0 is any
	Path    string          // a path with wildcards, as in a Rule; "" is any
	When    func(Call) bool // calls for which it returns true, of those selected above
}

// WaitForCall waits for a call that the filter selects, and returns the record of the first one.
// Earlier calls count too. After the timeout the error is os.ErrDeadlineExceeded, and has the last
// calls.
func (engine *Engine) WaitForCall(filter Filter, timeout time.Duration) (Call, error) {
	if filter.Kind != 0 && !filter.Kind.isRecorded() {
		return Call{}, fmt.Errorf("%w: no record has the %v", ErrBadKind, filter.Kind)
	}
	if err := checkPattern(filter.Path); err != nil {
		return Call{}, err
	}
	var found *Call
	note := func(call Call) {
		if found == nil && filter.selects(call) {
			found = &call
		}
	}
	hook := &Hook{engine: engine, after: note}
	defer hook.End()
	isNew := true
	err := engine.wait(timeout, "no such call", func() (bool, error) {
		if isNew {
			isNew = false
			calls, err := engine.lastCalls()
			if err != nil {
				return false, err
			}
			for _, call := range calls {
				engine.lock.call(func() { note(call) })
			}
			engine.hooks = append(engine.hooks, hook)
		}
		return found != nil, nil
	})
	if found == nil {
		return Call{}, err
	}
	return *found, err
}

func (filter *Filter) selects(call Call) bool {
	return (filter.Session == 0 || filter.Session == call.Session) &&
		(filter.Kind == 0 || filter.Kind == call.Kind) &&
		(filter.Path == "" || matchesAny(namesOf(translated(filter.Path)), call.Path, call.NewPath)) &&
		(filter.When == nil || filter.When(call))
}

// wait waits until ready returns true. The engine is locked while ready runs.
func (engine *Engine) wait(timeout time.Duration, why string, ready func() (bool, error)) error {
	if err := checkDuration("timeout", timeout); err != nil {
		return err
	}
	end := time.Now().Add(timeout)
	engine.lock.Lock()
	defer engine.lock.Unlock()
	for {
		if engine.pointer == nil {
			return ErrBadPointer
		}
		if err := engine.stopped(); err != nil {
			return err
		}
		if done, err := ready(); done || err != nil {
			return err
		}
		if !time.Now().Before(end) {
			return fmt.Errorf("lucernetick: %s within %v: %w%s", why, timeout,
				os.ErrDeadlineExceeded, engine.shown(5))
		}
		if engine.lock.isCalling() {
			return errWaits
		}
		engine.waitUntil(earlier(end, time.Now().Add(checkEvery)))
	}
}

// checkEvery is how often a waiting test sees whether its server has stopped.
const checkEvery = time.Second

func earlier(one, other time.Time) time.Time {
	if one.Before(other) {
		return one
	}
	return other
}

// shown returns the last calls as text, this many at most.
func (engine *Engine) shown(most int) string {
	calls, err := engine.lastCalls()
	if err != nil || len(calls) == 0 {
		return "; no client made a call"
	}
	if len(calls) > most {
		calls = calls[len(calls)-most:]
	}
	text := "; the last calls:"
	for _, call := range calls {
		text += "\n  " + call.String()
	}
	return text
}
