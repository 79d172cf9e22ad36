//go:build cgo && linux && amd64

package lucernetick

import (
	"errors"
	"fmt"
	"io"
	"net"
	"strconv"
	"strings"
	"sync"
	"time"
)

// ErrMoreClients is the error of Connect after all clients of a Races have connected.
var ErrMoreClients = errors.New("lucernetick: all clients of the races have connected")

// ErrOneGoroutine is the error of a client's Read if it would wait for its own goroutine.
var ErrOneGoroutine = errors.New("lucernetick: this goroutine waits for a reply before it has " +
	"connected all clients of the races, without which there is no turn: first call Connect for " +
	"all of them, then use each connection in its own goroutine")

// A Races runs concurrent clients, each in its own goroutine, under a seeded scheduler: the same
// seed gives the same interleaving, at any speed of the goroutines.
//
// A session has a turn, which is one step of a call, only when every client waits for a reply or
// has closed its connection. The scheduler picks one of the waiting clients. So close a connection
// when its client is done; until then the others wait. A client that neither sends nor closes for
// longer than Patience is skipped until it sends again. Stray then says so.
type Races struct {
	// Time is the clock of all turns. It is 1000000000 unless a test sets it.
	Time VirtualTime
	// Patience is how long the scheduler waits for a client that neither sends nor closes: 30
	// seconds, unless a test sets it before its clients connect.
	Patience time.Duration

	engine *Engine
	isLent bool   // the engine is the caller's
	name   string // the seed or the schedule, as a text
	fault  error  // why there is no engine, or why the race stopped

	lock     monitor
	moved    *sync.Cond // signalled after turns, and when the races or a connection close
	draws    splitMix
	replayed []int // the turns of the schedule to replay
	replays  bool
	clients  int // how many will connect
	awaited  int // how many must connect before the first turn
	racers   []*racer
	turns    []raceTurn
	stray    string
	timer    *time.Timer
	since    time.Time // when a client last acted
	closed   bool
}

// mostSessions is how many sessions an engine has at most.
const mostSessions = 256

// NewRaces makes a race of this number of clients on an empty file system. It panics if the number
// is not from 1 to 256. If memory runs out, Connect returns the error.
func NewRaces(seed uint64, clients int) *Races {
	races := RacesOver(nil, seed, clients)
	races.isLent = false
	races.engine, races.fault = New()
	if races.fault != nil {
		// Like a closed engine, it rejects all calls.
		races.engine = &Engine{}
		races.engine.moved = sync.NewCond(&races.engine.lock)
	}
	return races
}

// RacesOver is like NewRaces, on an engine that Close does not close.
func RacesOver(engine *Engine, seed uint64, clients int) *Races {
	if err := checkRange("clients", int64(clients), 1, mostSessions); err != nil {
		panic(err)
	}
	races := &Races{
		Patience: 30 * time.Second, clients: clients, awaited: clients, engine: engine,
		isLent: true, name: fmt.Sprintf("seed %d", seed),
	}
	races.draws.state = seed
	races.Time.Set(time.Unix(1_000_000_000, 0))
	races.moved = sync.NewCond(&races.lock)
	return races
}

// ReplayRaces replays a schedule that Schedule returned. It panics if the schedule is not one. If
// the schedule names no waiting client, the first waiting one has the turn, and Stray says so.
func ReplayRaces(schedule string, clients int) *Races {
	races := NewRaces(0, clients)
	races.replay(schedule)
	return races
}

// ReplayRacesOver is like ReplayRaces, on an engine that Close does not close.
func ReplayRacesOver(engine *Engine, schedule string, clients int) *Races {
	races := RacesOver(engine, 0, clients)
	races.replay(schedule)
	return races
}

func (races *Races) replay(schedule string) {
	replayed, err := readSchedule(schedule)
	if err != nil {
		panic(err)
	}
	races.name = "a schedule"
	races.replays = true
	races.replayed = replayed
}

// Engine returns the engine, to write and inspect files before the clients run and after they have
// ended, for rules and for callbacks. During the race calls may be in progress, and no other
// session may have a turn.
func (races *Races) Engine() *Engine { return races.engine }

// Connect opens the session of the next client: 1, 2, 3 and so on. Connect all clients before any
// of them runs, since turns depend on their numbers. The first request of a client is part of the
// race. So make a client that waits for a reply when it is made, as sftp.NewClientPipe does, in its
// own goroutine. If a goroutine waits for a reply before it has connected all clients, the error is
// ErrOneGoroutine.
//
// Writes never block. Reads block until a reply or the deadline.
func (races *Races) Connect() (net.Conn, error) {
	races.lock.Lock()
	defer races.lock.Unlock()
	if races.fault != nil {
		return nil, races.fault
	}
	if err := checkDuration("Patience", races.Patience); err != nil {
		return nil, err
	}
	if len(races.racers) == races.clients {
		return nil, ErrMoreClients
	}
	session, err := races.engine.Open()
	if err != nil {
		return nil, err
	}
	one := &racer{
		races: races, session: session, number: len(races.racers) + 1, goroutine: goroutine(),
	}
	races.racers = append(races.racers, one)
	races.advance()
	return one, nil
}

// Schedule returns the clients of the turns so far, as "1x4 2 1x2": four turns of client 1, one of
// client 2, and two of client 1.
func (races *Races) Schedule() string {
	races.lock.Lock()
	defer races.lock.Unlock()
	return writeSchedule(races.clientsOfTurns())
}

// A RaceTurn is a turn of a race.
type RaceTurn struct {
	Client int // 1, 2, 3 and so on
	Turn   Turn
}

// Turns returns the turns so far.
func (races *Races) Turns() []RaceTurn {
	races.lock.Lock()
	defer races.lock.Unlock()
	var turns []RaceTurn
	for _, one := range races.turns {
		turns = append(turns, one.RaceTurn)
	}
	return turns
}

// Stray returns why the race is not reproducible: a client was skipped, or the schedule has no turn
// of a waiting client. It returns "" if the turns so far depend only on the seed or the schedule.
func (races *Races) Stray() string {
	races.lock.Lock()
	defer races.lock.Unlock()
	return races.stray
}

// Err returns a StoppedError if a callback has stopped the race, as Close does. Until then it
// returns nil.
func (races *Races) Err() error {
	races.lock.Lock()
	defer races.lock.Unlock()
	return races.stopped()
}

var _ io.Closer = (*Races)(nil)

// Close ends all connections, and frees the engine. It returns a StoppedError if a callback has
// stopped the race.
func (races *Races) Close() error {
	races.lock.Lock()
	defer races.lock.Unlock()
	races.closed = true
	if races.timer != nil {
		races.timer.Stop()
	}
	races.moved.Broadcast()
	if races.isLent {
		races.leave()
	} else {
		races.engine.Close()
	}
	return races.stopped()
}

// The methods below are called with the lock held.

// leave ends all sessions, and completes their calls.
func (races *Races) leave() {
	for _, one := range races.racers {
		if !one.ended {
			one.ended = true
			one.session.Close()
		}
	}
	races.engine.RunAll()
}

// clientsOfTurns returns the client of each turn.
func (races *Races) clientsOfTurns() []int {
	var clients []int
	for _, turn := range races.turns {
		clients = append(clients, turn.Client)
	}
	return clients
}

// advance runs turns as long as every client waits for a reply or has disconnected. It is called
// after each action of a client. If a callback of a turn ends the goroutine, it stops the race.
func (races *Races) advance() {
	if races.lock.isCalling() {
		// A callback acts as a client. The turns go on after it.
		return
	}
	isDone := false
	defer func() {
		if !isDone {
			races.stop(NewStoppedError(recover()))
		}
		races.moved.Broadcast()
		races.since = time.Now()
		races.watch(races.Patience)
	}()
	for !races.closed && len(races.racers) >= races.awaited {
		waiting, all := races.waiting()
		if !all || len(waiting) == 0 {
			break
		}
		one := races.choose(waiting)
		at := len(races.turns)
		races.turns = append(races.turns, raceTurn{RaceTurn: RaceTurn{Client: one.number}})
		races.lock.call(func() {
			races.turns[at].Turn = one.turn(races.Time.Now())
			races.turns[at].recorded = races.engine.recordedNow()
		})
	}
	isDone = true
}

// stop ends all connections.
func (races *Races) stop(why error) {
	races.fault = why
	for _, one := range races.racers {
		one.ended = true
		one.fault = why
	}
}

// stopped returns why the race stopped, or nil.
func (races *Races) stopped() error {
	var why *StoppedError
	if errors.As(races.fault, &why) {
		return why
	}
	return nil
}

// strays sets why the race is not reproducible.
func (races *Races) strays(why string) {
	if races.stray == "" {
		races.stray = fmt.Sprintf("before turn %d: %s", len(races.turns)+1, why)
	}
}

// waiting returns the clients that wait for a reply, in order, and whether all others have
// disconnected.
func (races *Races) waiting() ([]*racer, bool) {
	var waiting []*racer
	all := true
	for _, one := range races.racers {
		if one.waits() {
			waiting = append(waiting, one)
		} else if !one.ended && !one.slow {
			all = false
		}
	}
	return waiting, all
}

// choose picks the client of the next turn.
func (races *Races) choose(waiting []*racer) *racer {
	if !races.replays {
		return waiting[races.draws.next()%uint64(len(waiting))]
	}
	if len(races.replayed) > 0 {
		number := races.replayed[0]
		races.replayed = races.replayed[1:]
		for _, one := range waiting {
			if one.number == number {
				return one
			}
		}
	}
	races.strays("the schedule has no turn of a waiting client")
	return waiting[0]
}

// watch checks after this time whether clients still wait.
func (races *Races) watch(patience time.Duration) {
	if races.timer != nil {
		races.timer.Stop()
	}
	if waiting, _ := races.waiting(); len(waiting) > 0 && !races.closed {
		races.timer = time.AfterFunc(patience, races.hurry)
	}
}

// hurry skips the clients that the race waits for, if no client acted for long enough.
func (races *Races) hurry() {
	races.lock.Lock()
	defer races.lock.Unlock()
	if passed := time.Since(races.since); passed < races.Patience {
		races.watch(races.Patience - passed)
		return
	}
	var slow []string
	for number := 1; number <= races.clients; number++ {
		if number > len(races.racers) {
			slow = append(slow, strconv.Itoa(number))
			continue
		}
		one := races.racers[number-1]
		if one.slow = !one.ended && !one.waits(); one.slow {
			slow = append(slow, strconv.Itoa(number))
		}
	}
	races.strays(fmt.Sprintf("client %s neither sent nor closed its connection for %v",
		strings.Join(slow, " and "), races.Patience))
	races.awaited = len(races.racers)
	races.advance()
}
