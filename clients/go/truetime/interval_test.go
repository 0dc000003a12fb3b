package truetime

import "testing"

// noLimit is the last clock reading at which a publication without a limit may be used.
const noLimit = 1<<64 - 1

// TestFresh is fresh up to the last clock reading at which it is. What is read is worked out by hand in tools/suites/clients.py.
func TestFresh(t *testing.T) {
	p := Publication{Clock: 10, Hi: MaxTime, ValidUntil: 20, UsableUntil: noLimit, Epoch: 3, Number: 4}
	for clock, want := range map[uint64]bool{10: true, 20: true, 21: false, MaxTime: false} {
		if now, err := p.At(clock); err != nil || now.Fresh != want || now.Epoch != 3 || now.Number != 4 {
			t.Error(clock, now, err)
		}
	}
	for _, clock := range []uint64{0, 9, MaxTime + 1} {
		if now, err := p.At(clock); err != ClockBack || now != (Reading{Interval: allTimes}) {
			t.Error(clock, now, err)
		}
	}
}

// TestUsable is usable up to the last clock reading at which it is; a clock that goes back is refused first.
func TestUsable(t *testing.T) {
	p := Publication{Clock: 10, Hi: MaxTime, ValidUntil: 20, UsableUntil: 30}
	for clock, want := range map[uint64]error{9: ClockBack, 10: nil, 30: nil, 31: TooWide, MaxTime: TooWide, MaxTime + 1: ClockBack} {
		if now, err := p.At(clock); err != want || (err != nil && now != (Reading{Interval: allTimes})) {
			t.Error(clock, now, err)
		}
	}
}
