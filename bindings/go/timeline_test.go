package lucernetick

import (
	"encoding/json"
	"io"
	"os"
	"os/exec"
	"path/filepath"
	"strings"
	"testing"
)

// replayed runs a schedule of two clients, and returns its page.
func replayed(t *testing.T, races *Races, requests ...string) string {
	t.Helper()
	conns := racing(t, races)
	for number, conn := range conns {
		ask(t, conn, requests[number])
	}
	for _, conn := range conns {
		must(t, conn.Close())
	}
	path := filepath.Join(t.TempDir(), "race.html")
	must(t, races.Timeline(path))
	return path
}

// dataOf returns the data of a page.
func dataOf(t *testing.T, path string) timeline {
	t.Helper()
	page, err := os.ReadFile(path)
	must(t, err)
	_, data, _ := strings.Cut(string(page), `type="application/json">`)
	data, _, _ = strings.Cut(data, "</script>")
	var found timeline
	must(t, json.Unmarshal([]byte(data), &found))
	return found
}

// A call has the turns in which its request was read, it took effect and its reply was written.
func TestTheTurnsOfATimeline(t *testing.T) {
	races := ReplayRaces("1 2x2 1x2 2 1 2x3 1", 2)
	found := dataOf(t, replayed(t, races, makes, looks))
	same(t, len(found.Turns), 11)
	same(t, found.Turns[5], moved{2, "BLOCKED"})
	same(t, []interface{}{found.Title, found.Schedule, found.Stray, found.Clients},
		[]interface{}{"Race by a schedule", races.Schedule(), "", 2})
	calls := [][]interface{}{}
	for _, call := range found.Calls {
		calls = append(calls, []interface{}{
			call.Client, call.Kind, call.Paths, call.Request, call.Point, call.Reply, call.Helper,
			call.Failed,
		})
	}
	same(t, calls, [][]interface{}{
		{1, "mkdir", []string{"/a"}, 4, 7, 11, uint64(0), false},
		{2, "stat", []string{"/a"}, 3, 9, 10, uint64(0), false},
	})
}

// A STAT is on its way below /a when /a is renamed. The rename completes it, in its own turn.
func helped(t *testing.T) (*Races, string) {
	engine, err := FromFiles(map[string][]byte{"/a/f": []byte("1")}, at(0))
	must(t, err)
	t.Cleanup(func() { engine.Close() })
	stat := looks[:9] + string(packet(packetStat, number(8), text([]byte("/a/f"))))
	rename := looks[:9] + string(packet(18, number(7), text([]byte("/a")), text([]byte("/<b>"))))
	races := ReplayRacesOver(engine, "1x4 2x9", 2)
	return races, replayed(t, races, stat, rename)
}

func TestAHelpedCallOfATimeline(t *testing.T) {
	races, path := helped(t)
	found := dataOf(t, path)
	same(t, len(found.Calls), 2)
	looked, renamed := found.Calls[0], found.Calls[1]
	same(t, []interface{}{looked.Kind, renamed.Paths}, []interface{}{"stat", []string{"/a", "/<b>"}})
	same(t, []interface{}{looked.Helper, looked.Point}, []interface{}{renamed.Number, renamed.Point})
	same(t, renamed.Helper, uint64(0))
	same(t, found.Turns[looked.Point-1], moved{2, "DECIDED"})
	// The engine stays open.
	must(t, races.Close())
	_, there := snapshot(t, races.Engine())["/<b>/f"]
	same(t, there, true)
}

func TestATimelineInABrowser(t *testing.T) {
	browser, err := exec.LookPath("chromium")
	if err != nil {
		t.Skip("there is no chromium")
	}
	_, path := helped(t)
	page, err := exec.Command(browser, "--headless", "--no-sandbox", "--disable-gpu", "--dump-dom",
		"--user-data-dir="+t.TempDir(), "file://"+path).Output()
	must(t, err)
	for part, wanted := range map[string]int{
		`class="call"`: 2, `class="helps"`: 1, `class="point helped"`: 1, "<tr": 3,
		"2 clients, 2 calls, ": 1, "stat /a/f": 1, "/&lt;b&gt;": 1,
	} {
		if count := strings.Count(string(page), part); count < wanted {
			t.Errorf("%s is there %d times", part, count)
		}
	}
}

// Close of a race on an engine of the caller ends the sessions.
func TestARaceOverAnEngine(t *testing.T) {
	engine := NewT(t)
	for round := 0; round < 200; round++ {
		races := RacesOver(engine.Engine, 1, 2)
		for _, conn := range racing(t, races) {
			ask(t, conn, looks[:9])
		}
		must(t, races.Close())
	}
	conn := engine.Connect(nil)
	must(t, conn.Close())
	_, err := io.ReadAll(conn)
	must(t, err)
}
