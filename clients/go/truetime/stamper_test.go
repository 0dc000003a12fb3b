package truetime

import (
	"testing"
	"time"
)

// TestStampOf is the rule by values worked out by hand: the least free number, the latest, the floor, the lease, the answer.
func TestStampOf(t *testing.T) {
	const all = MaxTime
	for _, row := range []struct {
		free, latest, floor, lo, hi int64
		stamp                       int64
		err                         error
	}{
		{0, 0, 0, 0, all, 0, nil},
		{1, 0, 0, 0, all, 1, nil}, // 0 was given
		{0, 250, 0, 0, all, 250, nil},
		{0, 250, 249, 0, all, 250, nil},
		{0, 250, 251, 0, all, 251, nil},
		{250, 250, 0, 0, all, 250, nil},
		{251, 250, 0, 0, all, 251, nil},
		{251, 250, 251, 0, all, 251, nil},
		{1_000, 250, 999, 0, all, 1_000, nil},
		{0, 250, 0, 300, all, 300, nil},
		{301, 250, 0, 300, all, 301, nil},
		// The floor may be ten seconds ahead of the latest, and no more.
		{0, 0, 10_000_000_000, 0, all, 10_000_000_000, nil},
		{0, 0, 10_000_000_001, 0, all, 0, FloorTooFar},
		{0, 250, 10_000_000_250, 0, all, 10_000_000_250, nil},
		{0, 250, 10_000_000_251, 0, all, 0, FloorTooFar},
		{20_000_000_000, 250, 10_000_000_251, 0, all, 0, FloorTooFar},
		{0, 250, 10_000_000_251, 20_000_000_000, all, 0, FloorTooFar},
		{0, 250, 1<<63 - 1, 0, all, 0, FloorTooFar},
		// The end of time.
		{0, all, 0, 0, all, all, nil},
		{all, all, all, all, all, all, nil},
		{all, 250, 0, 0, all, all, nil},
		{all + 1, 250, 0, 0, all, 0, UsedUp},
		{0, all, all + 1, 0, all, 0, UsedUp},
		{0, all, all + 10_000_000_000, 0, all, 0, UsedUp},
		{0, all, all + 10_000_000_001, 0, all, 0, FloorTooFar},
		// The ends of the lease.
		{0, 250, 0, 250, 250, 250, nil},
		{0, 250, 0, 0, 250, 250, nil},
		{0, 250, 0, 0, 249, 0, LeaseOver},
		{0, 250, 251, 0, 250, 0, LeaseOver},
		{250, 250, 0, 0, 250, 250, nil},
		{251, 250, 0, 0, 250, 0, LeaseOver}, // the last timestamp is the lease's end
		{0, 0, 0, 0, 0, 0, nil},
		{1, 0, 0, 0, 0, 0, LeaseOver},
		// The order of the refusals.
		{0, 250, 10_000_000_251, 0, 100, 0, FloorTooFar},
		{all + 1, 250, 10_000_000_251, 0, 100, 0, FloorTooFar},
		{all + 1, 250, 0, 0, 300, 0, UsedUp},
		{all, 250, 0, 0, all - 1, 0, LeaseOver},
	} {
		stamp, err := Lease{row.lo, row.hi}.StampOf(row.free, row.latest, row.floor)
		if stamp != row.stamp || err != row.err {
			t.Error(row, stamp, err)
		}
	}
}

func TestLeasesOfStampers(t *testing.T) {
	for lease, want := range map[Lease]error{
		{8, 7}:                   LeaseBackwards,
		{1<<63 - 1, MaxTime + 1}: LeaseBackwards,
		{-1, MaxTime + 1}:        ErrNegative,
		{7, MaxTime + 1}:         LeasePastMax,
		{7, 7}:                   nil,
		{0, MaxTime}:             nil,
	} {
		if stamper, err := NewStamperWithLease(new(Client), lease); err != want || (stamper == nil) != (want != nil) {
			t.Error(lease, stamper, err)
		}
	}
}

func TestLimitsOfStampers(t *testing.T) {
	stamper := NewStamper(new(Client))
	for _, limits := range [][2]time.Duration{{-1, 1}, {MaxAhead + 1, 1}, {0, 0}, {0, MaxGrid + 1}} {
		if err := stamper.SetLimits(limits[0], limits[1]); err != ErrLimits || stamper.ahead != Ahead || stamper.grid != 1 {
			t.Error(limits, err)
		}
	}
	if err := stamper.SetLimits(MaxAhead, MaxGrid); err != nil {
		t.Error(err)
	}
	if stamper.Extend(-1) != ErrNegative || stamper.RiseAbove(-1) != ErrNegative {
		t.Error("a negative time is none")
	}
}

// TestStamperRefusals has a client refuse, whose own tests say by what: NoFile where it is closed, or ErrUnsupported.
func TestStamperRefusals(t *testing.T) {
	client := new(Client)
	_, want := client.Now()
	stamper := NewStamper(client)
	if given, err := stamper.Stamp(1<<63 - 1); given.Timestamp != 0 || given.Interval != allTimes || err != want || want == nil {
		t.Error(given, err)
	}
	if given, err := stamper.Stamp(-1); given.Timestamp != 0 || err != ErrNegative {
		t.Error(given, err)
	}
	if is, err := stamper.IsPast(0); is || err != want {
		t.Error(is, err)
	}
	if is, err := stamper.WaitPast(always, 0); is || err != want {
		t.Error(is, err)
	}
}
