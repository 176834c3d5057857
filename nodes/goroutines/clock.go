// Package goroutines is for adapters of libraries that have goroutines and timers: nodes/hashicorp uses it. It takes the place of the
// packages time and math/rand in the library's sources. Each node has a clock of its own, which stands still until the adapter moves it.
// Timers ring only when the adapter rings them.
package goroutines

import "time"

type (
	Duration = time.Duration
	Time     = time.Time
)

const Millisecond = time.Millisecond

// Timer is one call of After that has not rung.
type Timer struct {
	Armed Time
	After Duration
	rings chan Time
}

// Clock is the time of one node, with its timers in the order in which they were armed.
type Clock struct {
	Now    Time
	Timers []*Timer
}

// Current is the clock that the library reads. A call of the protocol runs one node, so one clock at a time is enough.
var Current *Clock

// Ring rings the timers that are chosen.
func (c *Clock) Ring(isChosen func(*Timer) bool) {
	timers := c.Timers
	c.Timers = nil
	for _, t := range timers {
		if isChosen(t) {
			t.rings <- c.Now
		} else {
			c.Timers = append(c.Timers, t)
		}
	}
}

// After and the others are those of time and math/rand. With 0 a random timeout is the least that the library asks for.
func After(d Duration) <-chan Time {
	t := &Timer{Current.Now, d, make(chan Time, 1)}
	Current.Timers = append(Current.Timers, t)
	return t.rings
}

func Now() Time    { return Current.Now }
func Seed(int64)   {}
func Int63() int64 { return 0 }
