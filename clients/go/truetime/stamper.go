package truetime

import (
	"context"
	"sync/atomic"
	"time"
)

const (
	// MaxAhead is the most that a floor may lie ahead of the reading's latest, in nanoseconds: ten seconds.
	MaxAhead = 10_000_000_000
	// Ahead is how far it may, unless SetLimits says otherwise: a second, as for sessions.
	Ahead = 1_000_000_000
	// MaxGrid is the widest grid, in nanoseconds: a second.
	MaxGrid = 1_000_000_000
)

// longestSleep is the longest one before the next look: a newer publication may have a later earliest.
const longestSleep = 50 * time.Millisecond

// A Lease is the times from which timestamps are given, from Lo to Hi, both included.
type Lease struct {
	Lo, Hi int64
}

// StampOf is the rule of all timestamps, of numbers that are not negative. It gives the least number up to MaxTime that is no less than the latest of the
// reading, the floor, the lower end of the lease, and free. That is the least number above all timestamps given: 0 before the
// first one, and then one more than the last one.
//
// It refuses, in this order, with FloorTooFar where the floor is more than MaxAhead above the latest, with UsedUp where there
// is no such number, and with LeaseOver where it is above the upper end of the lease. The timestamp is 0 then.
func (l Lease) StampOf(free, latest, floor int64) (int64, error) {
	return l.stampOf(free, latest, floor, MaxAhead, 1)
}

// stampOf is StampOf with how far the floor may be ahead, and on a grid.
func (l Lease) stampOf(free, latest, floor, ahead, grid int64) (int64, error) {
	if floor > latest && floor-latest > ahead {
		return 0, FloorTooFar
	}
	stamp := later(later(latest, floor), later(l.Lo, free))
	if grid > 1 {
		stamp += (grid - stamp%grid) % grid
	}
	if stamp > MaxTime {
		return 0, UsedUp
	}
	if stamp > l.Hi {
		return 0, LeaseOver
	}
	return stamp, nil
}

func later(a, b int64) int64 {
	if a < b {
		return b
	}
	return a
}

// A Stamp is a timestamp, and the reading by which it was given, which was taken in the call. Fresh is false where the daemon
// is late or gone, and another Epoch than before is another life of the daemon; the timestamp is as good in each case.
type Stamp struct {
	Timestamp int64
	Reading
}

// A Stamper gives timestamps for commits in the database's own process, by the time that the daemon shares. It does for a
// commit what the service does, without asking it: it takes a reading in the call, and gives the least timestamp that is no
// less than the reading's latest, and above all timestamps that it gave before. Any number of goroutines may use it.
//
// One lease, one stamper: a stamper knows its own timestamps alone. Two stampers whose leases meet, in one process or in two,
// on one machine or on two, may give the same timestamp, and so may a stamper and the sessions of a machine, unless its
// setting stampers holds the stamper's lease. So give each stamper a lease that meets no other, and share one among the
// goroutines.
//
// After a restart a new stamper knows nothing of the timestamps given before, and a floor may have put some of them ahead of
// the time. Stamp the first commit with a floor above the greatest timestamp of the log (FloorTooFar says that this is still
// too far ahead: wait), or make the stamper with a lease that begins above it, or a new one.
type Stamper struct {
	client      *Client
	lo          int64        // the lower end of the lease
	hi          atomic.Int64 // and the upper one
	ahead, grid int64
	free        atomic.Int64 // the least number above all timestamps given: 0, or one more than the last one
}

func newStamper(client *Client, lease Lease) *Stamper {
	s := &Stamper{client: client, lo: lease.Lo, ahead: Ahead, grid: 1}
	s.hi.Store(lease.Hi)
	return s
}

// NewStamper gives a stamper by this client, with the whole of time as its lease. It has given no timestamp.
func NewStamper(client *Client) *Stamper {
	return newStamper(client, Lease{0, MaxTime})
}

// NewStamperWithLease is NewStamper with a lease. It fails with ErrNegative, and refuses with LeaseBackwards where the ends of
// the lease are out of order, then with LeasePastMax where the upper one is above MaxTime.
func NewStamperWithLease(client *Client, lease Lease) (*Stamper, error) {
	if lease.Lo < 0 {
		return nil, ErrNegative
	}
	if lease.Hi < lease.Lo {
		return nil, LeaseBackwards
	}
	if lease.Hi > MaxTime {
		return nil, LeasePastMax
	}
	return newStamper(client, lease), nil
}

// SetLimits sets how far a floor may lie ahead of the latest, MaxAhead at most, since it moves all later timestamps, too; and of
// what timestamps are multiples, MaxGrid at most: a microsecond where a database keeps these. Call it before other goroutines use
// the stamper. It fails with ErrLimits for other lengths, and then nothing changes.
func (s *Stamper) SetLimits(ahead, grid time.Duration) error {
	if ahead < 0 || ahead > MaxAhead || grid < 1 || grid > MaxGrid {
		return ErrLimits
	}
	s.ahead, s.grid = int64(ahead), int64(grid)
	return nil
}

// Extend has the lease end later, while other goroutines stamp. It never ends earlier by this. It fails with ErrNegative, and
// refuses with LeasePastMax.
func (s *Stamper) Extend(hi int64) error { return raise(&s.hi, hi, hi) }

// RiseAbove has all timestamps from now on be above this time, as above the greatest in a log. It fails with ErrNegative, and
// refuses with LeasePastMax.
func (s *Stamper) RiseAbove(t int64) error { return raise(&s.free, t, t+1) }

// raise raises a number to another one, by a time that it is checked by.
func raise(word *atomic.Int64, t, number int64) error {
	if t < 0 {
		return ErrNegative
	}
	if t > MaxTime {
		return LeasePastMax
	}
	for found := word.Load(); found < number; found = word.Load() {
		if word.CompareAndSwap(found, number) {
			break
		}
	}
	return nil
}

// Stamp gives the timestamp of a commit: the least on the grid that is no less than the latest of a reading taken in this call, the floor
// and the lower end of the lease, and above every timestamp that this stamper gave before. It lies in the lease.
//
// It fails with ErrNegative, and refuses as Client.Now, then as Lease.StampOf. After a refusal nothing is used up. By a mapped file it makes no system call
// but the clock's. It has one load and one exchange, and one more of each where another goroutine was faster.
func (s *Stamper) Stamp(floor int64) (Stamp, error) {
	if floor < 0 {
		return Stamp{Reading: Reading{Interval: allTimes}}, ErrNegative
	}
	now, err := s.client.Now()
	if err != nil {
		return Stamp{Reading: Reading{Interval: allTimes}}, err
	}
	for {
		free := s.free.Load()
		stamp, err := Lease{s.lo, s.hi.Load()}.stampOf(free, now.Latest, floor, s.ahead, s.grid)
		if err != nil {
			return Stamp{Reading: Reading{Interval: allTimes}}, err
		}
		if s.free.CompareAndSwap(free, stamp+1) {
			return Stamp{stamp, now}, nil
		}
	}
}

// IsPast says whether a timestamp has surely passed: it is below the earliest of a reading taken in this call. Only then may
// anybody be told of its commit. It refuses as Client.Now, and makes the system calls of that.
func (s *Stamper) IsPast(stamp int64) (bool, error) {
	now, err := s.client.Now()
	if err != nil {
		return false, err
	}
	return now.After(stamp), nil
}

// Left is one step of WaitPast, for who has to look at something else meanwhile: 0 where a timestamp has surely passed, or else how
// long to sleep before the next look, at most 50 milliseconds. It refuses as Client.Now.
func (s *Stamper) Left(stamp int64) (time.Duration, error) {
	now, err := s.client.Now()
	if err != nil || now.After(stamp) {
		return 0, err
	}
	if ahead := stamp - now.Earliest; ahead < int64(longestSleep) {
		return time.Duration(ahead) + 1, nil
	}
	return longestSleep, nil
}

// WaitPast sleeps until a timestamp has surely passed, and says true, or until the context ends, and says false, with the
// context's error. It takes a reading before the first sleep and after each, also once the context has ended, and sleeps as
// long as the timestamp is ahead of the earliest, at most 50 milliseconds at once.
//
// It refuses as Client.Now, at once, but for NoSlewed: that passes with a round of the daemon, so it sleeps and looks again. The
// timestamp is as it was after each error: wait again.
func (s *Stamper) WaitPast(ctx context.Context, stamp int64) (bool, error) {
	for {
		sleep, err := s.Left(stamp)
		switch {
		case err == NoSlewed:
			sleep = longestSleep
		case err != nil:
			return false, err
		case sleep == 0:
			return true, nil
		}
		if err := ctx.Err(); err != nil {
			return false, err
		}
		timer := time.NewTimer(sleep)
		select {
		case <-timer.C:
		case <-ctx.Done():
			timer.Stop()
		}
	}
}
