//go:build cgo && linux && amd64

package lucernetick

import (
	"sync/atomic"
	"time"
)

// A Clock returns the timestamp of a call that begins. time.Now is one. Fractions of a second are
// dropped, since the protocol has none.
type Clock func() time.Time

// read returns the clock's timestamp.
func (clock Clock) read() (timestamp, error) { return timestampOf("the clock's result", clock()) }

// A VirtualTime is a clock that only the test advances. It begins at 1970.
type VirtualTime struct{ moment atomic.Uint32 }

// NewVirtualTime returns a clock that is set to this time.
func NewVirtualTime(moment time.Time) *VirtualTime {
	clock := &VirtualTime{}
	clock.Set(moment)
	return clock
}

// Now returns the time that was set. It is a Clock.
func (clock *VirtualTime) Now() time.Time { return timestamp(clock.moment.Load()).time() }

// Set sets the time, earlier or later than before, without its fraction of a second. It panics if
// the protocol cannot represent the time: before 1970 or after February 2106.
func (clock *VirtualTime) Set(moment time.Time) {
	seconds, err := timestampOf("moment", moment)
	if err != nil {
		panic(err)
	}
	clock.moment.Store(uint32(seconds))
}

// Advance moves the time forward, and panics as Set does.
func (clock *VirtualTime) Advance(by time.Duration) { clock.Set(clock.Now().Add(by)) }
