//go:build cgo && linux && amd64

package lucernetick

// A splitMix is the generator SplitMix64: the same numbers for a seed in every language.
type splitMix struct{ state uint64 }

func (drawn *splitMix) next() uint64 {
	drawn.state += 0x9E3779B97F4A7C15
	mixed := drawn.state
	mixed = (mixed ^ mixed>>30) * 0xBF58476D1CE4E5B9
	mixed = (mixed ^ mixed>>27) * 0x94D049BB133111EB
	return mixed ^ mixed>>31
}

// An unanswered counts the packets that a client has sent and its session has not answered.
type unanswered struct {
	count int
	input input
	ended bool // a bad length ended the session, which reads no further
}

// fed counts the packets that these bytes complete. A bad length, which ends the session, counts as
// one.
func (packets *unanswered) fed(data []byte) {
	packets.input.Write(data)
	for packet := packets.input.packet(); packet != nil && !packets.ended; {
		packets.count++
		packets.ended = len(packet) == lengthBytes
		packets.input.Next(len(packet))
		packet = packets.input.packet()
	}
}
