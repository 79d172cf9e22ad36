//go:build cgo && linux && amd64

package lucernetick

import (
	"fmt"
	"strconv"
	"strings"
)

// readSchedule returns the clients of a schedule, turn by turn. Its text is the same in every
// language: "1x4 2 1x2" is four turns of client 1, one of client 2, and two of client 1.
func readSchedule(schedule string) ([]int, error) {
	var clients []int
	for _, word := range strings.Fields(schedule) {
		client, times, isRun := strings.Cut(word, "x")
		if !isRun {
			times = "1"
		}
		number, err := strconv.ParseUint(client, 10, 16)
		count, other := strconv.ParseUint(times, 10, 31)
		if firstOf(err, other) != nil {
			return nil, fmt.Errorf("lucernetick: schedule must be as 1x4 2 1x2, and %q is not", word)
		}
		for ; count > 0; count-- {
			clients = append(clients, int(number))
		}
	}
	return clients, nil
}

func writeSchedule(clients []int) string {
	var words []string
	for at := 0; at < len(clients); {
		end := at
		for end < len(clients) && clients[end] == clients[at] {
			end++
		}
		word := strconv.Itoa(clients[at])
		if end > at+1 {
			word += "x" + strconv.Itoa(end-at)
		}
		words = append(words, word)
		at = end
	}
	return strings.Join(words, " ")
}
