//go:build cgo && linux && amd64

package lucernetick

import (
	"fmt"
	"runtime/debug"
)

// A StoppedError says why a goroutine of a server or a race ended: a clock, a callback or a rule
// failed. All connections were closed.
type StoppedError struct{ Cause error }

// NewStoppedError returns the error of a goroutine that panicked with this value. Without a value,
// the goroutine called runtime.Goexit, as t.FailNow does.
func NewStoppedError(value interface{}) *StoppedError {
	switch cause := value.(type) {
	case nil:
		return &StoppedError{fmt.Errorf("runtime.Goexit, as by t.FailNow")}
	case error:
		return &StoppedError{fmt.Errorf("a panic: %w\n%s", cause, debug.Stack())}
	default:
		return &StoppedError{fmt.Errorf("a panic: %v\n%s", cause, debug.Stack())}
	}
}

func (stopped *StoppedError) Error() string {
	return fmt.Sprintf("lucernetick: all connections were closed, since a goroutine ended by %v",
		stopped.Cause)
}

// Unwrap returns the cause.
func (stopped *StoppedError) Unwrap() error { return stopped.Cause }
