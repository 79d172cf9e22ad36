package lucernetick

import (
	"errors"
	"strings"
	"testing"
	"time"
)

// panicked returns what an action panics with.
func panicked(t *testing.T, action func()) (text string) {
	t.Helper()
	defer func() {
		err, isError := recover().(error)
		if !isError {
			t.Fatal("it does not panic")
		}
		text = err.Error()
	}()
	action()
	return ""
}

// The protocol has the seconds from 0 to 2^32 - 1.
func TestTimesThatAreRejected(t *testing.T) {
	engine := newEngine(t)
	session := open(t, engine, makes)
	const says = "lucernetick: moment must be from 1970-01-01 00:00:00 +0000 UTC to " +
		"2106-02-07 06:28:15 +0000 UTC, not "
	for moment, text := range map[time.Time]string{
		at(-1):      "1969-12-31 23:59:59 +0000 UTC",
		at(1 << 32): "2106-02-07 06:28:16 +0000 UTC",
	} {
		moment := moment
		_, turned := session.Turn(moment)
		_, settled := session.Settle(moment, 1)
		_, fromFiles := FromFiles(nil, moment)
		for _, err := range []error{
			turned, settled, fromFiles, engine.WriteFiles(nil, moment), engine.Link("/a", "/b", moment),
		} {
			same(t, err.Error(), says+text)
		}
		same(t, panicked(t, func() { NewVirtualTime(moment) }), says+text)
		conn, err := engine.Connect(func() time.Time { return moment })
		must(t, err)
		_, err = conn.Write([]byte(makes))
		same(t, strings.HasPrefix(err.Error(), "lucernetick: the clock's result must be from"), true)
	}
	same(t, len(snapshot(t, engine)), 1)
}

func TestTimesWithoutTheirFractions(t *testing.T) {
	clock := NewVirtualTime(time.Unix(7, 999_999_999))
	same(t, clock.Now(), at(7))
	clock.Advance(90 * time.Second)
	same(t, clock.Now(), at(97))
	same(t, panicked(t, func() { clock.Advance(-98 * time.Second) }) != "", true)
	engine, err := FromFiles(map[string][]byte{"/f": {}}, time.Time{})
	must(t, err)
	defer engine.Close()
	same(t, snapshot(t, engine)["/f"].Mtime, at(0))
}

func TestPathsThatAreRejected(t *testing.T) {
	engine := newEngine(t)
	for path, says := range map[string]string{
		"":                             "it is empty, and / is the root",
		"/a\x00":                       `"/a\x00" has a NUL byte`,
		"/" + strings.Repeat("a", 256): "has a name of 256 bytes, and at most 255 are allowed",
		strings.Repeat("/a", 2049):     "it has 4098 bytes, and at most 4096 are allowed",
	} {
		_, waited := engine.WaitFor(path, 0)
		errs := []error{
			engine.WriteFiles(map[string][]byte{path: nil}, at(0)), engine.Link("/a", path, at(0)), waited,
		}
		if path != "" {
			_, refused := engine.Refuse(Rule{Path: path})
			errs = append(errs, refused)
		}
		for _, err := range errs {
			same(t, errors.Is(err, ErrBadPath) && strings.HasSuffix(err.Error(), says), true)
		}
	}
	same(t, len(snapshot(t, engine)), 1)
}

func TestNumbersThatAreRejected(t *testing.T) {
	same(t, open(t, newEngine(t), "").Sent(-1).Error(),
		"lucernetick: count must be from 0 to 9223372036854775807, not -1")
	for clients, says := range map[int]string{0: "not 0", 257: "not 257"} {
		clients := clients
		same(t, panicked(t, func() { NewRaces(1, clients) }),
			"lucernetick: clients must be from 1 to 256, "+says)
	}
	_, err := newEngine(t).WaitFor("/a", -1)
	same(t, err.Error(), "lucernetick: timeout must be at least 0, not -1ns")
	races := NewRaces(0, 1)
	defer races.Close()
	races.Patience = -time.Second
	_, err = races.Connect()
	same(t, err.Error(), "lucernetick: Patience must be at least 0, not -1s")
}
