package lucernetick

import (
	"errors"
	"fmt"
	"io"
	"net"
	"os"
	"reflect"
	"strings"
	"sync"
	"testing"
	"time"

	"github.com/pkg/sftp"
)

// Values of other implementations of SplitMix64 for the seeds 0 and 1234567.
func TestDraws(t *testing.T) {
	for seed, wanted := range map[uint64][5]uint64{
		0: {
			0xE220A8397B1DCDAF, 0x6E789E6AA1B965F4, 0x06C45D188009454F, 0xF88BB8A8724C81EC,
			0x1B39896A51A8749B,
		},
		1234567: {
			6457827717110365317, 3203168211198807973, 9817491932198370423, 4593380528125082431,
			16408922859458223821,
		},
	} {
		draws := splitMix{seed}
		for _, next := range wanted {
			same(t, draws.next(), next)
		}
	}
}

func TestPacketsAreCounted(t *testing.T) {
	sent := makes + looks[9:]
	for cut := 0; cut <= len(sent); cut++ {
		var packets unanswered
		packets.fed([]byte(sent[:cut]))
		packets.fed([]byte(sent[cut:]))
		same(t, packets.count, 3)
	}
	var packets unanswered
	for at, part := range []byte(sent) {
		packets.fed([]byte{part})
		wanted := 0
		for _, end := range []int{9, 28, len(sent)} {
			if at+1 >= end {
				wanted++
			}
		}
		same(t, packets.count, wanted)
	}
}

// A session ends at a length of 0 or above the limit, before a packet of that length is complete.
func TestLengthsThatEndASession(t *testing.T) {
	for _, length := range []string{"\x00\x00\x00\x00", "\x00\x04\x00\x01", "\xff\xff\xff\xff"} {
		var packets unanswered
		packets.fed([]byte(makes + length + looks))
		same(t, packets.count, 3)
	}
	var packets unanswered
	packets.fed([]byte("\x00\x04\x00\x00"))
	same(t, packets.count, 0)
}

// racing returns a race, and the connections of all its clients.
func racing(t *testing.T, races *Races) []net.Conn {
	t.Helper()
	t.Cleanup(func() { races.Close() })
	conns := make([]net.Conn, races.clients)
	for number := range conns {
		conn, err := races.Connect()
		must(t, err)
		conns[number] = conn
	}
	return conns
}

// turnsOf returns the clients of the turns so far.
func turnsOf(races *Races) []int {
	races.lock.Lock()
	defer races.lock.Unlock()
	return races.clientsOfTurns()
}

func TestSchedulesAsText(t *testing.T) {
	for text, clients := range map[string][]int{
		"": nil, "3": {3}, "1x4 2 1x2": {1, 1, 1, 1, 2, 1, 1}, "12x3": {12, 12, 12},
	} {
		same(t, writeSchedule(clients), text)
		read, err := readSchedule(text)
		must(t, err)
		same(t, read, clients)
	}
	for _, wrong := range []string{"1 b", "x", "1x", "-1", "1xx2"} {
		says := panicked(t, func() { ReplayRaces(wrong, 2) })
		same(t, strings.HasPrefix(says, "lucernetick: schedule must be as 1x4 2 1x2, and"), true)
	}
}

// ask writes all requests of a client at once.
func ask(t *testing.T, conn net.Conn, data string) {
	t.Helper()
	_, err := conn.Write([]byte(data))
	must(t, err)
}

// told reads this number of bytes, which are pending.
func told(t *testing.T, conn net.Conn, count int) string {
	t.Helper()
	data := make([]byte, count)
	_, err := io.ReadFull(conn, data)
	must(t, err)
	return string(data)
}

// The first five numbers of this seed are odd, so client 2 has five turns. They send VERSION, then
// read its MKDIR, acquire the root, decide it and write the reply. Client 1 continues after client
// 2 has disconnected.
func TestTheTurnsOfASeed(t *testing.T) {
	races := NewRaces(1234567, 2)
	conns := racing(t, races)
	ask(t, conns[0], looks)
	same(t, turnsOf(races), []int(nil))
	ask(t, conns[1], makes)
	same(t, turnsOf(races), []int{2, 2, 2, 2, 2})
	must(t, conns[1].Close())
	same(t, turnsOf(races), []int{2, 2, 2, 2, 2, 1, 1, 1, 1, 1})
	reply := told(t, conns[0], version+len(looked))[version:]
	moment := string(number(1_000_000_000))
	same(t, reply, looked[:33]+moment+moment)
	must(t, conns[0].Close())
	same(t, races.Stray(), "")
}

// The numbers of this seed are odd, even, odd, even and odd.
func TestTheTurnsOfAnotherSeed(t *testing.T) {
	races := NewRaces(0, 2)
	conns := racing(t, races)
	ask(t, conns[0], looks)
	ask(t, conns[1], makes)
	same(t, turnsOf(races)[:5], []int{2, 1, 2, 1, 2})
}

// uploader is a client that makes /out, writes a file there and renames the directory. It reports
// the results.
func uploader(conn net.Conn, name string) string {
	client, err := sftp.NewClientPipe(conn, conn)
	if err != nil {
		return err.Error()
	}
	defer client.Close()
	made, went := "made", "renamed"
	if client.Mkdir("/out") != nil {
		made = "found"
	}
	if writeAndRename(client, name) != nil {
		went = "lost"
	}
	return made + ", " + went
}

func writeAndRename(client *sftp.Client, name string) error {
	file, err := client.Create("/out/" + name)
	if err != nil {
		return err
	}
	if _, err := file.Write([]byte(name)); err != nil {
		return err
	}
	if err := file.Close(); err != nil {
		return err
	}
	return client.Rename("/out", "/done-"+name)
}

// A run is the result of a race.
type run struct {
	told     [2]string
	schedule string
	tree     Snapshot
}

// race runs two uploaders.
func race(t *testing.T, races *Races) run {
	t.Helper()
	defer races.Close()
	var outcome run
	done := make(chan bool)
	for at, name := range []string{"a", "b"} {
		conn, err := races.Connect()
		must(t, err)
		at, name := at, name
		go func() {
			outcome.told[at] = uploader(conn, name)
			done <- true
		}()
	}
	<-done
	<-done
	same(t, races.Stray(), "")
	outcome.schedule = races.Schedule()
	outcome.tree = snapshot(t, races.Engine())
	return outcome
}

func TestTheSameEachTime(t *testing.T) {
	const seeds = 1000
	outcomes, schedules := map[string]bool{}, map[string]bool{}
	runs := make([]run, seeds)
	for seed := range runs {
		runs[seed] = race(t, NewRaces(uint64(seed), 2))
		schedules[fmt.Sprint(runs[seed].schedule)] = true
	}
	for seed, before := range runs {
		after := race(t, NewRaces(uint64(seed), 2))
		same(t, after, before)
	}
	for seed, found := range runs[:200] {
		if outcome := strings.Join(found.told[:], " "); !outcomes[outcome] {
			outcomes[outcome] = true
			t.Log(seed, outcome, found.tree)
		}
	}
	same(t, outcomes, map[string]bool{
		"made, renamed found, lost": true, "made, lost found, renamed": true,
		"found, renamed made, lost": true, "found, lost made, renamed": true,
	})
	if len(schedules) < seeds/2 {
		t.Errorf("%d schedules of %d seeds", len(schedules), seeds)
	}
}

func TestAScheduleIsGivenBack(t *testing.T) {
	for seed := uint64(0); seed < 50; seed++ {
		before := race(t, NewRaces(seed, 2))
		after := race(t, ReplayRaces(before.schedule, 2))
		same(t, after, before)
	}
}

// The schedule of another race: missing turns, and turns of a client that does not wait, are
// reported.
func TestSchedulesThatDoNotFit(t *testing.T) {
	for _, schedule := range []string{"", "2x4", "2x5 1 2 1x3", "3 2"} {
		races := ReplayRaces(schedule, 2)
		conns := racing(t, races)
		ask(t, conns[0], looks)
		ask(t, conns[1], makes)
		var both sync.WaitGroup
		both.Add(2)
		for _, conn := range conns {
			go func(conn net.Conn) {
				defer both.Done()
				defer conn.Close()
				io.ReadFull(conn, make([]byte, version+28))
			}(conn)
		}
		both.Wait()
		same(t, len(turnsOf(races)), 10)
		same(t, races.Stray() != "", true)
	}
}

// Client 1 waits for the reply of client 2, not for the server.
func TestAClientThatWaitsForAnother(t *testing.T) {
	races := NewRaces(0, 2)
	races.Patience = 50 * time.Millisecond
	conns := racing(t, races)
	asked, done := make(chan bool), make(chan error, 1)
	go func() {
		<-asked
		conns[0].Write([]byte(looks))
		_, err := io.ReadFull(conns[0], make([]byte, version+len(looked)))
		conns[0].Close()
		done <- err
	}()
	same(t, races.Stray(), "")
	ask(t, conns[1], makes)
	told(t, conns[1], version+28)
	same(t, races.Stray() != "", true)
	close(asked)
	must(t, conns[1].Close())
	must(t, <-done)
	_, err := conns[0].Read(make([]byte, 1))
	same(t, err, net.ErrClosed)
	same(t, turnsOf(races), []int{2, 2, 2, 2, 2, 1, 1, 1, 1, 1})
}

func TestAClientThatDoesNotCome(t *testing.T) {
	races := NewRaces(0, 2)
	races.Patience = 50 * time.Millisecond
	t.Cleanup(func() { races.Close() })
	conn, err := races.Connect()
	must(t, err)
	ask(t, conn, looks)
	done := make(chan string)
	go func() { done <- told(t, conn, version) }()
	<-done
	same(t, races.Stray(), "before turn 1: client 2 neither sent nor closed its connection for 50ms")
	_, err = races.Connect()
	must(t, err)
	_, err = races.Connect()
	same(t, err, ErrMoreClients)
}

// The requests of a client take effect, although it reads no reply.
func TestAClientThatGoesEarly(t *testing.T) {
	races := NewRaces(0, 2)
	conns := racing(t, races)
	ask(t, conns[0], makes+looks[9:])
	must(t, conns[0].Close())
	same(t, conns[0].Close(), net.ErrClosed)
	_, err := conns[0].Write([]byte("x"))
	same(t, err, net.ErrClosed)
	_, err = conns[0].Read(make([]byte, 1))
	same(t, err, net.ErrClosed)
	same(t, len(turnsOf(races)), 0)
	must(t, conns[1].Close())
	same(t, len(turnsOf(races)), 9)
	_, there := snapshot(t, races.Engine())["/a"]
	same(t, there, true)
	same(t, races.Stray(), "")
}

func TestASessionThatEndsItself(t *testing.T) {
	races := NewRaces(0, 2)
	conns := racing(t, races)
	ask(t, conns[0], "\x00\x00\x00\x00")
	ask(t, conns[1], looks[9:])
	for _, conn := range conns {
		left, err := io.ReadAll(conn)
		must(t, err)
		same(t, len(left), 0)
		_, err = conn.Write([]byte(looks))
		same(t, err, io.ErrClosedPipe)
		must(t, conn.Close())
	}
	same(t, len(turnsOf(races)), 2)
}

func TestDeadlines(t *testing.T) {
	races := NewRaces(0, 2)
	conns := racing(t, races)
	must(t, conns[0].SetDeadline(time.Now().Add(20*time.Millisecond)))
	_, err := conns[0].Read(make([]byte, 1))
	same(t, errors.Is(err, os.ErrDeadlineExceeded), true)
	_, err = conns[0].Write([]byte(looks))
	var fault net.Error
	same(t, errors.As(err, &fault) && fault.Timeout(), true)
	must(t, conns[0].SetDeadline(time.Time{}))
	ask(t, conns[0], looks)
	ask(t, conns[1], makes)
	told(t, conns[0], version)
	same(t, conns[0].LocalAddr().String(), "client 1")
	same(t, conns[1].RemoteAddr().Network(), "lucernetick")
}

// A waiting client gets an error when the race is closed.
func TestRacesThatAreClosed(t *testing.T) {
	races := NewRaces(0, 2)
	conns := racing(t, races)
	told := make(chan error, 1)
	go func() {
		_, err := conns[0].Read(make([]byte, 1))
		told <- err
	}()
	time.Sleep(20 * time.Millisecond)
	must(t, races.Close())
	same(t, <-told, ErrBadPointer)
	_, err := conns[1].Write([]byte(looks))
	same(t, err, ErrBadPointer)
	must(t, races.Close())
}

// The race has its own clock, and may start with files.
func TestATreeThatIsThereBefore(t *testing.T) {
	races := NewRaces(7, 1)
	must(t, races.Engine().WriteFiles(map[string][]byte{"/out/x": []byte("1")}, at(5)))
	races.Time.Set(at(1_700_000_000))
	conn := racing(t, races)[0]
	same(t, uploader(conn, "a"), "found, renamed")
	found := snapshot(t, races.Engine())
	same(t, found["/done-a/x"].Mtime, at(5))
	same(t, found["/done-a/a"].Mtime, at(1_700_000_000))
	for _, client := range turnsOf(races) {
		same(t, client, 1)
	}
	same(t, reflect.DeepEqual(turnsOf(races), []int{}), false)
}
