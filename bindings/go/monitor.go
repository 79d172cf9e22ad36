//go:build cgo && linux && amd64

package lucernetick

import (
	"bytes"
	"fmt"
	"runtime"
	"strconv"
	"sync"
	"sync/atomic"
)

// A monitor is a mutex. Callbacks run while it is locked, and their goroutine may lock it again.
type monitor struct {
	mutex   sync.Mutex
	calling atomic.Uint64 // the goroutine that runs a callback; 0 if none does
}

func (lock *monitor) Lock() {
	if !lock.isCalling() {
		lock.mutex.Lock()
	}
}

func (lock *monitor) Unlock() {
	if !lock.isCalling() {
		lock.mutex.Unlock()
	}
}

// isCalling reports whether this goroutine runs a callback.
func (lock *monitor) isCalling() bool {
	calling := lock.calling.Load()
	return calling != 0 && calling == goroutine()
}

// call runs a callback. The monitor is locked.
func (lock *monitor) call(callback func()) {
	before := lock.calling.Swap(goroutine())
	defer lock.calling.Store(before)
	callback()
}

// goroutine returns the number of this goroutine. A trace begins with "goroutine 18 [running]:".
func goroutine() uint64 {
	var trace [64]byte
	words := bytes.Fields(trace[:runtime.Stack(trace[:], false)])
	number, err := strconv.ParseUint(string(words[1]), 10, 64)
	if err != nil {
		panic(fmt.Sprintf("lucernetick: a trace begins with %q", trace))
	}
	return number
}
