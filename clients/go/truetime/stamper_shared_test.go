//go:build linux && (amd64 || arm64 || loong64 || mips64le || ppc64le || riscv64) && !truetime_nofile

package truetime

import (
	"context"
	"sort"
	"sync"
	"testing"
	"time"
)

// far is far above the readings of these tests, so the timestamps do not depend on the clock.
const far = 500_000_000_000_000_000

// publishNow publishes this interval as that of this moment, in life 70 + count, and overdue.
func (p *page) publishNow(count uint64, lo, hi int64, usableUntil uint64) {
	clock := uint64(systemNanotime())
	p.publish(count, Publication{Clock: clock, Lo: uint64(lo), Hi: uint64(hi), ValidUntil: clock, UsableUntil: usableUntil, Epoch: 70 + count, Number: 9})
}

// stamperOn gives a stamper by a page with this interval, and a lease.
func stamperOn(t *testing.T, words *page, lease Lease) *Stamper {
	t.Helper()
	stamper, err := NewStamperWithLease(words.client(), lease)
	if err != nil {
		t.Fatal(err)
	}
	return stamper
}

func wantTimestamp(t *testing.T, stamper *Stamper, floor, want int64, reason error) {
	t.Helper()
	given, err := stamper.Stamp(floor)
	if given.Timestamp != want || err != reason || (err != nil && given.Interval != allTimes) {
		t.Error(given, err, "in place of", want, reason)
	}
}

func TestStampsOfLease(t *testing.T) {
	var words page
	words.publishNow(1, 1_000, 2_000, noLimit)
	stamper := stamperOn(t, &words, Lease{far, far + 2})
	wantTimestamp(t, stamper, 0, far, nil)
	// After a refusal nothing is used up.
	wantTimestamp(t, stamper, far+2, 0, FloorTooFar)
	wantTimestamp(t, stamper, 3_000, far+1, nil)
	wantTimestamp(t, stamper, 1<<63-1, 0, FloorTooFar)
	wantTimestamp(t, stamper, 0, far+2, nil)
	wantTimestamp(t, stamper, 0, 0, LeaseOver)
	wantTimestamp(t, stamper, far, 0, FloorTooFar)
	wantTimestamp(t, stamper, 0, 0, LeaseOver)
}

func TestStampsAtEndOfTime(t *testing.T) {
	var words page
	words.publishNow(1, MaxTime, MaxTime, noLimit)
	stamper := NewStamper(words.client())
	wantTimestamp(t, stamper, MaxTime+1, 0, UsedUp)
	wantTimestamp(t, stamper, 0, MaxTime, nil)
	wantTimestamp(t, stamper, 0, 0, UsedUp)
	wantTimestamp(t, stamper, MaxTime+MaxAhead+1, 0, FloorTooFar)
	for stamp, want := range map[int64]bool{0: true, MaxTime - 1: true, MaxTime: false, 1<<63 - 1: false} {
		if is, err := stamper.IsPast(stamp); is != want || err != nil {
			t.Error(stamp, is, err)
		}
	}
}

func TestOnlyEarliestHasPassed(t *testing.T) {
	var words page
	cancelled, cancel := context.WithCancel(always)
	cancel()
	for _, try := range []struct {
		lo, stamp int64
		want      bool
	}{{1_000, 999, true}, {1_000, far, false}, {MaxTime, MaxTime - 1, true}, {MaxTime, MaxTime, false}} {
		words.publishNow(1, try.lo, MaxTime, noLimit)
		stamper := NewStamper(words.client())
		if is, err := stamper.IsPast(try.stamp); is != try.want || err != nil {
			t.Error(try, is, err)
		}
		if is, err := stamper.WaitPast(cancelled, try.stamp); is != try.want || (err == nil) != try.want {
			t.Error(try, is, err)
		}
	}
}

func TestReadingsOfStamps(t *testing.T) {
	var words page
	words.publishNow(1, 1_000, 2_000, noLimit)
	stamper := NewStamper(words.client())
	first, err := stamper.Stamp(0)
	if err != nil || first.Timestamp != first.Latest || first.Latest-first.Earliest != 1_000 || first.Epoch != 71 || first.Fresh {
		t.Error(first, err)
	}
	words.publishNow(2, 1_000, 2_000, noLimit)
	next, err := stamper.Stamp(first.Timestamp + 900_000_000)
	if err != nil || next.Timestamp != first.Timestamp+900_000_000 || next.Epoch != 72 {
		t.Error(next, err)
	}
	// A floor put that one ahead of the time.
	wantTimestamp(t, stamper, 0, next.Timestamp+1, nil)
}

func TestReadingRefusesFirst(t *testing.T) {
	words := page{1: clockMonotonic}
	stamper := stamperOn(t, &words, Lease{far, far})
	wantTimestamp(t, stamper, 1<<63-1, 0, Nothing)
	for count, try := range []struct {
		lo, hi      int64
		usableUntil uint64
		want        error
	}{{1_000, 2_000, 1, TooWide}, {1_000, 2_000, 0, Nothing}, {2_000, 1_000, noLimit, NoSlot}} {
		words.publishNow(uint64(count)+1, try.lo, try.hi, try.usableUntil)
		wantTimestamp(t, stamper, 1<<63-1, 0, try.want)
		if is, err := stamper.IsPast(0); is || err != try.want {
			t.Error(is, err)
		}
		if is, err := stamper.WaitPast(always, 0); is || err != try.want {
			t.Error(is, err)
		}
	}
	words.publishNow(4, 1_000, 2_000, noLimit)
	wantTimestamp(t, stamper, 0, far, nil)
}

// TestWithdrawn has nothing published by CLOCK_MONOTONIC for a while: stamps and looks are refused, and a wait lasts until something
// is again, or the context ends.
func TestWithdrawn(t *testing.T) {
	var words page
	words.publishNow(1, 1_000_000_000, 1_000_000_000, noLimit)
	stamper := NewStamper(words.client())
	given, err := stamper.Stamp(0)
	if err != nil {
		t.Fatal(err)
	}
	words.publishNow(2, 2_000_000_000, 2_000_000_000, 0)
	wantTimestamp(t, stamper, 0, 0, NoSlewed)
	if is, err := stamper.IsPast(given.Timestamp); is || err != NoSlewed {
		t.Error(is, err)
	}
	if left, err := stamper.Left(given.Timestamp); left != 0 || err != NoSlewed {
		t.Error(left, err)
	}
	short, cancel := context.WithTimeout(always, 10*time.Millisecond)
	defer cancel()
	if is, err := stamper.WaitPast(short, given.Timestamp); is || err != context.DeadlineExceeded {
		t.Error(is, err)
	}
	began := time.Now()
	time.AfterFunc(80*time.Millisecond, func() { words.publishNow(3, 3_000_000_000, 3_000_000_000, noLimit) })
	if is, err := stamper.WaitPast(always, given.Timestamp); !is || err != nil || time.Since(began) < 80*time.Millisecond {
		t.Error(is, err, time.Since(began))
	}
}

func TestWaitPast(t *testing.T) {
	var words page
	words.publishNow(1, 1_000_000_000, 1_000_000_000, noLimit)
	stamper := NewStamper(words.client())
	began := time.Now()
	first, _ := stamper.Stamp(0)
	ahead, err := stamper.Stamp(first.Timestamp + 70_000_000)
	if is, also := stamper.IsPast(ahead.Timestamp); is || err != nil || also != nil {
		t.Error(is, err, also)
	}
	// The end of the context, before and in a sleep.
	cancelledAlready, cancel := context.WithCancel(always)
	cancel()
	if is, err := stamper.WaitPast(cancelledAlready, 1<<63-1); is || err != context.Canceled {
		t.Error(is, err)
	}
	short, cancel := context.WithTimeout(always, 10*time.Millisecond)
	defer cancel()
	if is, err := stamper.WaitPast(short, 1<<63-1); is || err != context.DeadlineExceeded {
		t.Error(is, err)
	}
	// The time of the timestamp, after two sleeps.
	if is, err := stamper.WaitPast(always, ahead.Timestamp); !is || err != nil {
		t.Error(is, err)
	}
	if took := time.Since(began); took <= 70*time.Millisecond || took > 30*time.Second {
		t.Error(took)
	}
	if is, err := stamper.IsPast(ahead.Timestamp); !is || err != nil {
		t.Error(is, err)
	}
	// One that has passed, after the context's end.
	if is, err := stamper.WaitPast(cancelledAlready, ahead.Timestamp); !is || err != nil {
		t.Error(is, err)
	}
}

// isShort says whether a call takes less than 40 milliseconds; where the host is busy, one of 50 has to.
func isShort(call func()) bool {
	for turn := 0; turn < 50; turn++ {
		began := time.Now()
		if call(); time.Since(began) < 40*time.Millisecond {
			return true
		}
	}
	return false
}

func TestWaitPastNoLonger(t *testing.T) {
	var words page
	words.publishNow(1, 1_000, 2_000, noLimit)
	stamper := NewStamper(words.client())
	over := func() {
		ctx, cancel := context.WithTimeout(always, 10*time.Millisecond)
		defer cancel()
		if is, err := stamper.WaitPast(ctx, far); is || err != context.DeadlineExceeded {
			t.Error(is, err)
		}
	}
	passed := func() {
		now, _ := stamper.client.Now()
		if is, err := stamper.WaitPast(always, now.Latest+10_000_000); !is || err != nil {
			t.Error(is, err)
		}
	}
	if !isShort(over) || !isShort(passed) {
		t.Error("it waits longer than it has to")
	}
}

// TestWaitPastPublication has a newer publication end a wait.
func TestWaitPastPublication(t *testing.T) {
	var words page
	words.publishNow(1, 1_000, 2_000, noLimit)
	stamper := NewStamper(words.client())
	ctx, cancel := context.WithTimeout(always, 30*time.Second)
	defer cancel()
	go func() {
		time.Sleep(20 * time.Millisecond)
		words.publishNow(2, far+1, far+1, noLimit)
	}()
	if is, err := stamper.WaitPast(ctx, far); !is || err != nil {
		t.Error(is, err)
	}
}

// inGoroutines has eight of them, which begin together, call this.
func inGoroutines(call func(goroutine int)) {
	start := make(chan struct{})
	var all sync.WaitGroup
	for goroutine := 0; goroutine < 8; goroutine++ {
		all.Add(1)
		go func(goroutine int) {
			defer all.Done()
			<-start
			call(goroutine)
		}(goroutine)
	}
	close(start)
	all.Wait()
}

// An asked is a timestamp, and the floor that it was asked with.
type asked struct {
	Stamp
	floor int64
}

// TestStampsOfGoroutines has each timestamp be the least that could follow those below it.
func TestStampsOfGoroutines(t *testing.T) {
	var words page
	words.publishNow(1, 1_000, 2_000, noLimit)
	stamper := NewStamper(words.client())
	var given [8][]asked
	inGoroutines(func(goroutine int) {
		for turn := 0; turn < 5_000; turn++ {
			floor := int64(0)
			switch {
			case turn%11 == 0:
				floor = 1<<63 - 1
			case turn%7 == 0:
				now, _ := stamper.client.Now()
				floor = now.Latest + 1_000_000
			}
			stamp, err := stamper.Stamp(floor)
			if err == nil {
				given[goroutine] = append(given[goroutine], asked{stamp, floor})
			} else if err != FloorTooFar || turn%11 != 0 {
				t.Error(err, floor)
			}
		}
	})
	var all []asked
	for _, of := range given {
		for place := 1; place < len(of); place++ {
			if of[place-1].Timestamp >= of[place].Timestamp {
				t.Error(of[place-1], of[place])
			}
		}
		all = append(all, of...)
	}
	if len(all) != 8*4_545 { // 455 floors of each goroutine are too far
		t.Error(len(all))
	}
	sort.Slice(all, func(i, j int) bool { return all[i].Timestamp < all[j].Timestamp })
	free := int64(0)
	for _, one := range all {
		if least := greatest(one.Latest, one.floor, free); one.Timestamp != least {
			t.Error(one, least)
		}
		free = one.Timestamp + 1
	}
}

// TestGoroutinesUseUpLease has each timestamp of a lease given once.
func TestGoroutinesUseUpLease(t *testing.T) {
	const number = 300_000
	var words page
	words.publishNow(1, 1_000, 2_000, noLimit)
	stamper := stamperOn(t, &words, Lease{far, far + number - 1})
	var given [8][]int64
	inGoroutines(func(goroutine int) {
		stamp, err := stamper.Stamp(0)
		for ; err == nil; stamp, err = stamper.Stamp(0) {
			given[goroutine] = append(given[goroutine], stamp.Timestamp)
		}
		if err != LeaseOver {
			t.Error(err)
		}
	})
	var all []int64
	for _, of := range given {
		all = append(all, of...)
	}
	sort.Slice(all, func(i, j int) bool { return all[i] < all[j] })
	for place, stamp := range all {
		if stamp != far+int64(place) {
			t.Fatal(place, stamp)
		}
	}
	if len(all) != number {
		t.Error(len(all))
	}
}

// TestStampAllocations has timestamps given without allocating.
func TestStampAllocations(t *testing.T) {
	var words page
	words.publishNow(1, 1_000, 2_000, noLimit)
	stamper := NewStamper(words.client())
	if often := testing.AllocsPerRun(1000, func() { stamper.Stamp(0) }); often != 0 {
		t.Error(often)
	}
}

func BenchmarkStamp(b *testing.B) {
	var words page
	words.publishNow(1, 1_000, 2_000, noLimit)
	stamper := NewStamper(words.client())
	b.ResetTimer()
	for turn := 0; turn < b.N; turn++ {
		given, err := stamper.Stamp(0)
		if err != nil {
			b.Fatal(err)
		}
		sum += uint64(given.Timestamp)
	}
}
