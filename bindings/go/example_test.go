package lucernetick_test

import (
	"fmt"
	"time"

	"lucernetick"
)

// INIT, MKDIR of /a under the id 7, and STAT of it under the id 8.
const asks = "\x00\x00\x00\x05\x01\x00\x00\x00\x03" +
	"\x00\x00\x00\x0f\x0e\x00\x00\x00\x07\x00\x00\x00\x02/a\x00\x00\x00\x00" +
	"\x00\x00\x00\x0b\x11\x00\x00\x00\x08\x00\x00\x00\x02/a"

// An engine whose tree has a file, as a snapshot shows it.
func ExampleFromFiles() {
	files := map[string][]byte{"/reports/old.csv": []byte("0\n")}
	engine, err := lucernetick.FromFiles(files, time.Unix(100, 0))
	if err != nil {
		fmt.Println(err)
		return
	}
	defer engine.Close()
	tree, err := engine.Snapshot()
	found := tree["/reports/old.csv"]
	fmt.Printf("%d paths, %q at %d, %v\n", len(tree), found.Contents(), found.Mtime.Unix(), err)
	// Output: 3 paths, "0\n" at 100, <nil>
}

// What a client did.
func ExampleEngine_Calls() {
	engine, err := lucernetick.New()
	if err != nil {
		fmt.Println(err)
		return
	}
	defer engine.Close()
	clock := &lucernetick.VirtualTime{}
	conn, err := engine.Connect(clock.Now)
	if err != nil {
		fmt.Println(err)
		return
	}
	if _, err := conn.Write([]byte(asks)); err != nil {
		fmt.Println(err)
		return
	}
	calls, err := engine.Calls()
	for _, call := range calls {
		fmt.Println(call.Number, call.Path, call.Kind == lucernetick.KindMkdir, call.Reply.IsOK())
	}
	fmt.Println(err)
	// Output:
	// 1 /a true true
	// 2 /a false true
	// <nil>
}

// Turns by hand, one at a time, until there is nothing to do.
func ExampleSession_Turn() {
	engine, err := lucernetick.New()
	if err != nil {
		fmt.Println(err)
		return
	}
	defer engine.Close()
	session, err := engine.Open()
	if err != nil {
		fmt.Println(err)
		return
	}
	if err := session.Feed([]byte(asks)); err != nil {
		fmt.Println(err)
		return
	}
	for turn := lucernetick.Wrote; turn != lucernetick.Idle; {
		if turn, err = session.Turn(time.Unix(100, 0)); err != nil {
			break
		}
		fmt.Println(turn)
	}
	// Output:
	// a reply was written
	// a call has begun
	// the call made a step
	// the call is decided
	// a reply was written
	// a call has begun
	// the call made a step
	// the call is decided
	// a reply was written
	// no whole packet is unread
}
