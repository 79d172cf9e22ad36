package lucernetick

import (
	"errors"
	"os"
	"strings"
	"testing"
	"time"

	"github.com/pkg/sftp"
)

// refuse adds a rule to the engine.
func refuse(t *testing.T, engine *Engine, rule Rule) *GivenRule {
	t.Helper()
	given, err := engine.Refuse(rule)
	must(t, err)
	return given
}

func refusals(t *testing.T, rule *GivenRule) uint64 {
	t.Helper()
	return rule.Refused()
}

// mkdir returns a MKDIR with this id.
func mkdir(id uint32, path string) []byte {
	return packet(14, number(id), text([]byte(path)), number(0))
}

// replied returns the status codes that a new session receives.
func replied(t *testing.T, engine *Engine, requests ...[]byte) []byte {
	t.Helper()
	session := open(t, engine, looks[:9])
	for _, request := range requests {
		must(t, session.Feed(request))
	}
	_, err := session.Settle(at(100), 1000)
	must(t, err)
	var sent []byte
	for {
		output, err := session.Output()
		must(t, err)
		if len(output) == 0 {
			break
		}
		sent = append(sent, output...)
		must(t, session.Sent(len(output)))
	}
	var codes []byte
	for sent = sent[version:]; len(sent) > 0; sent = sent[4+sent[3]:] {
		codes = append(codes, sent[12])
	}
	return codes
}

func TestARuleRefusesTheNextRequest(t *testing.T) {
	engine := newEngine(t)
	rule := refuse(t, engine, Rule{})
	same(t, replied(t, engine, mkdir(1, "/a"), mkdir(2, "/b")), []byte{4, 0})
	same(t, refusals(t, rule), uint64(1))
}

func TestEachStatusHasItsCode(t *testing.T) {
	for status, code := range map[Status]byte{
		StatusOK: 0, StatusEOF: 1, StatusNoSuchFile: 2, StatusPermissionDenied: 3,
		StatusFailure: 4, StatusBadMessage: 5, StatusOpUnsupported: 8,
	} {
		engine := newEngine(t)
		refuse(t, engine, Rule{Status: status})
		same(t, replied(t, engine, mkdir(1, "/a")), []byte{code})
	}
}

func TestARuleForSomeRequests(t *testing.T) {
	for _, one := range []struct {
		rule   Rule
		wanted []byte
	}{
		{Rule{Kind: KindMkdir, After: 1, Times: 2}, []byte{0, 4, 4, 0}},
		{Rule{Path: "/x/../b/", Times: Always}, []byte{0, 4, 0, 0}},
		{Rule{Session: 1, Times: Always}, []byte{4, 4, 4, 4}},
		{Rule{Session: 2, Times: Always}, []byte{0, 0, 0, 0}},
		{Rule{Kind: KindRmdir, Times: Always}, []byte{0, 0, 0, 0}},
	} {
		engine := newEngine(t)
		refuse(t, engine, one.rule)
		asks := [][]byte{mkdir(1, "/a"), mkdir(2, "/b"), mkdir(3, "/c"), mkdir(4, "/d")}
		same(t, replied(t, engine, asks...), one.wanted)
	}
}

func TestWhatNoRuleCanBe(t *testing.T) {
	engine := newEngine(t)
	for _, one := range []struct {
		rule   Rule
		wanted error
	}{
		{Rule{Kind: 2}, ErrBadKind},
		{Rule{Status: 7}, ErrBadStatus},
		{Rule{Path: "/" + strings.Repeat("a", 256)}, ErrBadPath},
		{Rule{Path: "/a\x00"}, ErrBadPath},
	} {
		if _, err := engine.Refuse(one.rule); !errors.Is(err, one.wanted) {
			t.Fatalf("%v: %v", one.rule, err)
		}
	}
	must(t, engine.Close())
	_, err := engine.Refuse(Rule{})
	same(t, err, ErrBadPointer)
}

func TestAClientWhoseOpenIsRefused(t *testing.T) {
	engine := newEngine(t)
	rule := refuse(t, engine, Rule{Kind: KindOpen, Path: "/f", Status: StatusPermissionDenied})
	client := connect(t, engine, time.Now)
	if _, err := client.Create("/f"); !errors.Is(err, os.ErrPermission) {
		t.Fatal(err)
	}
	same(t, refusals(t, rule), uint64(1))
	write(t, client, "/f", []byte("1"))
	same(t, string(read(t, client, "/f")), "1")
}

func TestAClientWhoseWriteIsRefusedTwice(t *testing.T) {
	engine := newEngine(t)
	rule := refuse(t, engine, Rule{Kind: KindWrite, Times: 2})
	client := connect(t, engine, time.Now)
	file, err := client.Create("/f")
	must(t, err)
	for i := 0; i < 2; i++ {
		var status *sftp.StatusError
		if _, err = file.WriteAt([]byte("1"), 0); !errors.As(err, &status) || status.Code != 4 {
			t.Fatal(err)
		}
	}
	_, err = file.WriteAt([]byte("1"), 0)
	must(t, err)
	must(t, file.Close())
	same(t, refusals(t, rule), uint64(2))
	same(t, string(read(t, client, "/f")), "1")
}

func TestARaceWithARefusal(t *testing.T) {
	for seed := uint64(0); seed < 10; seed++ {
		races := NewRaces(seed, 1)
		rule := refuse(t, races.Engine(), Rule{Kind: KindMkdir})
		conn, err := races.Connect()
		must(t, err)
		client, err := sftp.NewClientPipe(conn, conn)
		must(t, err)
		if client.Mkdir("/a") == nil {
			t.Fatal("it isn't refused")
		}
		must(t, client.Mkdir("/a"))
		must(t, client.Close())
		same(t, refusals(t, rule), uint64(1))
		same(t, races.Stray(), "")
		must(t, races.Close())
	}
}

// upload writes a file with this path, and returns the result of the WRITE.
func upload(t *testing.T, client *sftp.Client, path, contents string) error {
	t.Helper()
	file, err := client.Create(path)
	must(t, err)
	defer file.Close()
	_, err = file.Write([]byte(contents))
	return err
}

// A WRITE matches by the path that its handle was opened with.
func TestWritesToAPath(t *testing.T) {
	engine := NewT(t)
	rule := engine.Refuse(Rule{Kind: KindWrite, Path: "/d/../f", Times: Always})
	client := connect(t, engine.Engine, time.Now)
	must(t, upload(t, client, "/g", "1"))
	same(t, upload(t, client, "/f", "1") != nil, true)
	same(t, rule.Refused(), uint64(1))
	must(t, client.Rename("/g", "/h"))
	must(t, upload(t, client, "/h", "2"))
	same(t, string(engine.Snapshot()["/f"].Contents()), "")
}

// A number of a handle that is used again has its new path.
func TestAClosedHandle(t *testing.T) {
	engine := NewT(t)
	client := connect(t, engine.Engine, time.Now)
	must(t, upload(t, client, "/f", "1"))
	same(t, len(engine.opened), 0)
	_, err := client.Create("/f")
	must(t, err)
	same(t, len(engine.opened), 1)
	must(t, client.Close())
	same(t, len(engine.opened), 0)
}

func TestPatterns(t *testing.T) {
	paths := []string{"/in/a", "/in/b.part", "/in/c/d", "/in", "/in2/a", "/", "/in/[x]"}
	for pattern, wanted := range map[string][]string{
		"/in/*":       {"/in/a", "/in/b.part", "/in/[x]"},
		"/in/?":       {"/in/a"},
		"/in/[a-c]*":  {"/in/a", "/in/b.part"},
		"/in/**":      {"/in/a", "/in/b.part", "/in/c/d", "/in", "/in/[x]"},
		"/**/a":       {"/in/a", "/in2/a"},
		"**":          paths,
		"/":           {"/"},
		"/in*/./a":    {"/in/a", "/in2/a"},
		`/in/\[x\]`:   {"/in/[x]"},
		"/in/*/../*":  {"/in/a", "/in/b.part", "/in/[x]"},
		"/in/**/d/**": {"/in/c/d"},
		"/*/[^b]":     {"/in/a", "/in2/a"},
		"/*/[!b]":     {"/in/a", "/in2/a"},
		"/in/[[]x]":   {"/in/[x]"},
	} {
		must(t, checkPattern(pattern))
		found := []string{}
		for _, path := range paths {
			if matchesAny(namesOf(translated(pattern)), path) {
				found = append(found, path)
			}
		}
		same(t, found, wanted)
	}
	for _, name := range []string{"a", "*", "?", "[x]", `\`, "[!a]", "**", `\[!a]`} {
		pattern := namesOf(translated(Escape("/d/" + name)))
		same(t, matchesAny(pattern, "/d/"+name), true)
		same(t, matchesAny(pattern, "/d/b"), false)
	}
	for _, pattern := range []string{"/[", "/a[b/c]", `/a\`, "/[]"} {
		_, err := newEngine(t).Refuse(Rule{Path: pattern})
		same(t, errors.Is(err, ErrBadPath), true)
	}
}

// Both paths of a rename count.
func TestPatternsOfClients(t *testing.T) {
	engine := NewT(t)
	engine.WriteFiles(map[string][]byte{"/out": nil, "/f": {}}, at(0))
	rule := engine.Refuse(Rule{Path: "/out/*.csv", Times: Always, Status: StatusPermissionDenied})
	client := connect(t, engine.Engine, time.Now)
	same(t, errors.Is(client.Rename("/f", "/out/f.csv"), os.ErrPermission), true)
	must(t, client.Rename("/f", "/out/f.txt"))
	_, err := client.Create("/out/x.csv")
	same(t, errors.Is(err, os.ErrPermission), true)
	same(t, rule.Refused(), uint64(2))
}

func TestOpensByTheirFlags(t *testing.T) {
	engine := NewT(t)
	engine.WriteFiles(map[string][]byte{"/f": []byte("1")}, at(0))
	engine.Refuse(Rule{Flags: OpenFlagWrite, Times: Always})
	client := connect(t, engine.Engine, time.Now)
	same(t, string(read(t, client, "/f")), "1")
	_, err := client.Create("/f")
	same(t, err != nil, true)
	must(t, client.Mkdir("/d"))
}

func TestRulesByAFunction(t *testing.T) {
	engine := NewT(t)
	engine.Refuse(Rule{Times: Always, When: func(request Request) bool {
		return request.Kind == KindWrite && strings.HasPrefix(string(request.Data), "bad")
	}})
	client := connect(t, engine.Engine, time.Now)
	must(t, upload(t, client, "/f", "good"))
	same(t, upload(t, client, "/f", "bad") != nil, true)
}

// A disk is full until its rule ends. A WRITE that fits succeeds, also after one that does not.
func TestADiskThatIsFull(t *testing.T) {
	engine := NewT(t)
	full := engine.DiskFull(10)
	client := connect(t, engine.Engine, time.Now)
	must(t, upload(t, client, "/a", "12345"))
	must(t, upload(t, client, "/b", "12345"))
	same(t, upload(t, client, "/c", "1") != nil, true)
	full.End()
	must(t, upload(t, client, "/c", "123"))
	again := engine.DiskFull(4)
	same(t, upload(t, client, "/d", "12345") != nil, true)
	must(t, upload(t, client, "/d", "123"))
	same(t, upload(t, client, "/e", "12") != nil, true)
	same(t, []uint64{full.Refused(), again.Refused()}, []uint64{1, 2})
	same(t, string(engine.Snapshot()["/c"].Contents()), "123")
}

func TestATreeThatIsReadOnly(t *testing.T) {
	engine := NewT(t)
	engine.WriteFiles(map[string][]byte{"/d/f": []byte("1")}, at(7))
	before := engine.Snapshot()
	rule := engine.ReadOnly("")
	client := connect(t, engine.Engine, time.Now)
	_, created := client.Create("/d/f")
	for _, err := range []error{
		created, client.Mkdir("/e"), client.Remove("/d/f"), client.RemoveDirectory("/d"),
		client.Rename("/d/f", "/g"), client.PosixRename("/d/f", "/g"), client.Link("/d/f", "/g"),
		client.Chmod("/d/f", 0), client.Truncate("/d/f", 0),
	} {
		same(t, errors.Is(err, os.ErrPermission), true)
	}
	same(t, string(read(t, client, "/d/f")), "1")
	same(t, engine.Snapshot()["/d/f"].Contents(), before["/d/f"].Contents())
	same(t, len(engine.Snapshot()), len(before))
	rule.End()
	rule.End()
	engine.ReadOnly("/d/**")
	must(t, client.Mkdir("/e"))
	same(t, errors.Is(client.Remove("/d/f"), os.ErrPermission), true)
}

// The requests that a rule lets pass after it has ended, and one that its own function ends.
func TestARuleEnds(t *testing.T) {
	engine := newEngine(t)
	rule := refuse(t, engine, Rule{Times: Always})
	same(t, replied(t, engine, mkdir(1, "/a")), []byte{4})
	rule.End()
	same(t, replied(t, engine, mkdir(1, "/a")), []byte{0})
	var once *GivenRule
	once = refuse(t, engine, Rule{Times: Always, When: func(Request) bool {
		once.End()
		return true
	}})
	same(t, replied(t, engine, mkdir(1, "/b"), mkdir(2, "/c")), []byte{4, 0})
	same(t, once.Refused(), uint64(1))
}

// Kinds that no request with these conditions has.
func TestRulesThatCannotMatch(t *testing.T) {
	for _, rule := range []Rule{
		{Kind: KindStat, Flags: OpenFlagRead}, {Kind: KindOpen, AfterBytes: 2},
		{Flags: OpenFlagRead, AfterBytes: 2},
	} {
		_, err := newEngine(t).Refuse(rule)
		same(t, errors.Is(err, ErrBadKind), true)
	}
}

// The empty path is any path, as the zero value of other fields. The root is "/".
func TestTheEmptyPath(t *testing.T) {
	for path, wanted := range map[string]uint64{"": 1, "/": 0, "/a": 1, "/a/..": 0} {
		engine := newEngine(t)
		rule := refuse(t, engine, Rule{Path: path})
		_, err := open(t, engine, makes).Settle(at(100), 1000)
		must(t, err)
		same(t, rule.Refused(), wanted)
	}
}

// A rule is for a connection, by its session.
func TestARuleForAConnection(t *testing.T) {
	engine := NewT(t)
	first, second := engine.Connect(time.Now), engine.Connect(time.Now)
	rule := engine.Refuse(Rule{Session: second.Session().Number()})
	for _, conn := range []*Conn{first, second} {
		_, err := conn.Write([]byte(makes))
		must(t, err)
	}
	same(t, engine.Calls()[0].Session, first.Session().Number())
	same(t, rule.Refused(), uint64(1))
}

// A rule that is given after the bytes were fed, but before a turn reads them.
func TestARuleForWhatWasFed(t *testing.T) {
	engine := newEngine(t)
	session := open(t, engine, makes+string(mkdir(8, "/b")))
	_, err := session.Settle(at(100), 1)
	must(t, err)
	rule := refuse(t, engine, Rule{Kind: KindMkdir})
	_, err = session.Settle(at(100), 1000)
	must(t, err)
	same(t, rule.Refused(), uint64(1))
	_, there := snapshot(t, engine)["/b"]
	same(t, there, true)
}
