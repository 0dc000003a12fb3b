package truetime

// MaxTime is the greatest time and the greatest clock reading, in nanoseconds.
const MaxTime = 4_000_000_000_000_000_000

// MaxDrift is the greatest drift of a clock, in parts per million.
const MaxDrift = 100_000

// An Interval holds the true time: it lies from Earliest to Latest, both included, in nanoseconds.
type Interval struct {
	Earliest, Latest int64
}

// After says whether time t has surely passed.
func (i Interval) After(t int64) bool { return t < i.Earliest }

// Before says whether time t has surely not arrived.
func (i Interval) Before(t int64) bool { return t > i.Latest }

// allTimes comes with each error.
var allTimes = Interval{0, MaxTime}

// A Reading is an interval that was read from the shared file.
type Reading struct {
	Interval
	// Epoch is the daemon's life, and Number that of the publication in it that was read.
	Epoch, Number uint64
	// Fresh is false where the daemon is late or gone. The interval is right, and widens until the daemon is back.
	Fresh bool
}

// A Publication is what the daemon published, by CLOCK_MONOTONIC.
type Publication struct {
	Clock       uint64 // the clock at the fusion, or soon after it
	Lo, Hi      uint64 // the interval that held the true time then
	ValidUntil  uint64 // the last clock reading at which a newer publication is not overdue
	UsableUntil uint64 // the last clock reading at which it may be used; 1<<64 - 1: no limit; 0: nothing is published any more
	Epoch       uint64 // the daemon's life
	Number      uint64 // the publication's number in that life
	Drift       uint64 // how far the clock may drift, in parts per million
}

// At gives the reading of this publication at a clock reading. It refuses with ClockBack and TooWide.
func (p *Publication) At(clock uint64) (Reading, error) {
	if err := p.refusalAt(clock); err != nil {
		return Reading{Interval: allTimes}, err
	}
	return Reading{p.aged(clock - p.Clock), p.Epoch, p.Number, p.isFreshAt(clock)}, nil
}

// The parts of At are small, so that Client.Now has them inlined.

func (p *Publication) refusalAt(clock uint64) error {
	if clock < p.Clock || clock > MaxTime {
		return ClockBack
	}
	if clock > p.UsableUntil {
		return TooWide
	}
	return nil
}

func (p *Publication) isFreshAt(clock uint64) bool { return clock <= p.ValidUntil }

func (p *Publication) aged(elapsed uint64) Interval {
	widening := widened(elapsed, p.Drift)
	return Interval{cut(p.Lo + (elapsed - widening)), cut(p.Hi + (elapsed + widening))}
}

// widened gives what a clock may be wrong by after a time up to MaxTime, rounded up: at most that time. Nothing overflows: below
// 1<<47, some 39 hours, the product of the time and MaxDrift has 64 bits.
func widened(elapsed, drift uint64) uint64 {
	if elapsed < 1<<47 {
		return (elapsed*drift + 999_999) / 1_000_000
	}
	return elapsed/1_000_000*drift + (elapsed%1_000_000*drift+999_999)/1_000_000
}

func cut(t uint64) int64 {
	if t > MaxTime {
		return MaxTime
	}
	return int64(t)
}
