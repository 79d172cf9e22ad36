package lucernetick

import (
	"encoding/binary"
	"testing"
)

// Types of packets (docs/PROTOCOL.md).
const (
	packetSetstat = 9
	packetStat    = 17
	replyAttrs    = 105
)

func number(value uint32) []byte { return binary.BigEndian.AppendUint32(nil, value) }

func text(data []byte) []byte { return append(number(uint32(len(data))), data...) }

func packet(kind byte, parts ...[]byte) []byte {
	body := []byte{kind}
	for _, part := range parts {
		body = append(body, part...)
	}
	return text(body)
}

// set sets attributes of a path in a new session. They are encoded with their flags.
func set(t *testing.T, engine *Engine, path string, attributes []byte) {
	t.Helper()
	session := asker(t, engine)
	must(t, session.Feed(packet(packetSetstat, number(1), text([]byte(path)), attributes)))
	_, err := session.Settle(at(0), 1000)
	must(t, err)
	output, err := session.Output()
	must(t, err)
	done := packet(101, number(1), number(0), text([]byte("Success")), number(0))
	same(t, string(output), string(done))
	must(t, session.Close())
}
