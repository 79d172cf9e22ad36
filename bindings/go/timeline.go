//go:build cgo && linux && amd64

package lucernetick

import (
	_ "embed"
	"encoding/json"
	"os"
	"strings"
)

// timelinePage is a page that draws a race. The data replaces a mark in it.
//
//go:embed timeline.html
var timelinePage string

const timelineMark = "@RACE@"

// A raceTurn is a turn, and the number of calls that were recorded until its end.
type raceTurn struct {
	RaceTurn
	recorded uint64
}

// A timeline is the data of the page. Turns are numbered from 1.
type timeline struct {
	Title    string  `json:"title"`
	Clients  int     `json:"clients"`
	Schedule string  `json:"schedule"`
	Stray    string  `json:"stray"`
	Turns    []moved `json:"turns"`
	Calls    []*span `json:"calls"` // in the order in which they took effect
}

// A moved is a turn of the page.
type moved struct {
	Client int    `json:"client"`
	Did    string `json:"did"`
}

// A span is a call of a race.
type span struct {
	Client  int      `json:"client"`
	Number  uint64   `json:"number"`
	Text    string   `json:"text"`
	Kind    string   `json:"kind"`
	Paths   []string `json:"paths"`
	Failed  bool     `json:"failed"`
	Request int      `json:"request"` // the turn that read the request
	Point   int      `json:"point"`   // the turn in which the call took effect
	Reply   int      `json:"reply"`   // the turn that wrote the reply; 0 if none has yet
	Helper  uint64   `json:"helper"`  // the other client's call that completed it; 0 if none
}

// Timeline writes the history of the race as a page of HTML, which needs no other file: a row for
// each client, its calls as bars from request to reply, their linearization points, and arrows from
// a call to those that it completed for other clients.
func (races *Races) Timeline(path string) error {
	races.lock.Lock()
	defer races.lock.Unlock()
	if races.fault != nil {
		return races.fault
	}
	calls, err := races.engine.Calls()
	if err != nil {
		return err
	}
	data, err := json.Marshal(races.timeline(calls))
	if err != nil {
		return err
	}
	page := strings.Replace(timelinePage, timelineMark, string(data), 1)
	return os.WriteFile(path, []byte(page), 0o666)
}

// timeline returns the data. The lock is held.
func (races *Races) timeline(calls []Call) timeline {
	found := timeline{
		Title: "Race by " + races.name, Clients: races.clients, Stray: races.stray,
		Schedule: writeSchedule(races.clientsOfTurns()), Turns: []moved{}, Calls: []*span{},
	}
	numbers := map[uint64]int{}
	for _, one := range races.racers {
		numbers[one.session.Number()] = one.number
	}
	requests, pending := map[int]int{}, map[int]*span{}
	for at, turn := range races.turns {
		found.Turns = append(found.Turns, moved{turn.Client, turnName(turn.Turn)})
		if turn.Turn == Begun {
			requests[turn.Client] = at + 1
		}
		begin := uint64(0)
		if at > 0 {
			begin = races.turns[at-1].recorded
		}
		for _, one := range spansOf(calls[begin:turn.recorded], numbers, turn.Client) {
			one.Request, one.Point = requests[one.Client], at+1
			pending[one.Client] = one
			found.Calls = append(found.Calls, one)
		}
		if one := pending[turn.Client]; one != nil && turn.Turn == Wrote {
			one.Reply = at + 1
			delete(pending, turn.Client)
		}
	}
	return found
}

// spansOf returns the calls of clients that a turn of one of them recorded.
func spansOf(calls []Call, numbers map[uint64]int, client int) []*span {
	var own uint64
	for _, call := range calls {
		if numbers[call.Session] == client {
			own = call.Number
		}
	}
	var found []*span
	for _, call := range calls {
		number := numbers[call.Session]
		if number == 0 {
			continue
		}
		one := &span{
			Client: number, Number: call.Number, Text: call.String(), Kind: call.Kind.String(),
			Paths: []string{}, Failed: !call.Reply.IsOK() && call.Reply.Status != statusEOF,
		}
		for _, path := range []string{call.Path, call.NewPath} {
			if path != "" {
				one.Paths = append(one.Paths, path)
			}
		}
		if number != client {
			one.Helper = own
		}
		found = append(found, one)
	}
	return found
}

const statusEOF = 1

// turnName is the name of a turn in the page.
func turnName(turn Turn) string {
	names := [...]string{"IDLE", "WROTE", "BEGUN", "MOVED", "BLOCKED", "DECIDED"}
	if int(turn) < len(names) {
		return names[turn]
	}
	return "ENDED"
}

// recordedNow returns how many calls were recorded so far.
func (engine *Engine) recordedNow() uint64 {
	engine.lock.Lock()
	defer engine.lock.Unlock()
	return engine.recorded
}
