//go:build cgo && linux && amd64

package lucernetick

import (
	"fmt"
	"strings"
	"time"
)

const (
	longestName = 255
	longestPath = 4096
	latest      = 1<<32 - 1 // the last timestamp of the protocol
)

// A timestamp is a time as the protocol has it: in seconds since 1970.
type timestamp uint32

func (moment timestamp) time() time.Time { return time.Unix(int64(moment), 0).UTC() }

// timestampOf converts a time, without its fraction of a second. The zero time is 1970.
func timestampOf(name string, moment time.Time) (timestamp, error) {
	if moment.IsZero() {
		return 0, nil
	}
	if seconds := moment.Unix(); 0 <= seconds && seconds <= latest {
		return timestamp(seconds), nil
	}
	return 0, fmt.Errorf("lucernetick: %s must be from %v to %v, not %v", name,
		timestamp(0).time(), timestamp(latest).time(), moment.UTC())
}

func checkRange(name string, value, least, most int64) error {
	if value < least || value > most {
		return fmt.Errorf("lucernetick: %s must be from %d to %d, not %d", name, least, most, value)
	}
	return nil
}

func checkDuration(name string, value time.Duration) error {
	if value < 0 {
		return fmt.Errorf("lucernetick: %s must be at least 0, not %v", name, value)
	}
	return nil
}

// checkPath checks the limits of the protocol.
func checkPath(path string) error {
	why := ""
	switch {
	case path == "":
		why = "it is empty, and / is the root"
	case strings.Contains(path, "\x00"):
		why = fmt.Sprintf("%q has a NUL byte", path)
	case len(path) > longestPath:
		why = fmt.Sprintf("it has %d bytes, and at most %d are allowed", len(path), longestPath)
	default:
		for _, name := range strings.Split(path, "/") {
			if len(name) > longestName {
				why = fmt.Sprintf("%q has a name of %d bytes, and at most %d are allowed", path,
					len(name), longestName)
			}
		}
	}
	if why == "" {
		return nil
	}
	return fmt.Errorf("%w: %s", ErrBadPath, why)
}

// namesOf returns the names of a path in the server's normal form: absolute, without ".", ".." and
// empty names.
func namesOf(path string) []string {
	names := []string{}
	for _, name := range strings.Split(path, "/") {
		switch {
		case name == ".." && len(names) > 0:
			names = names[:len(names)-1]
		case name != ".." && name != "." && name != "":
			names = append(names, name)
		}
	}
	return names
}

func normal(path string) string { return "/" + strings.Join(namesOf(path), "/") }
