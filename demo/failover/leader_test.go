package main

import (
	"context"
	"errors"
	"strings"
	"testing"
	"time"

	"example.org/truetime/clients/go/truetime"
)

// A stopped clock shows one time, and gives its stamps in order from the span's beginning.
type stoppedClock struct {
	now    int64
	span   truetime.Lease
	given  int64
	passed chan struct{} // a stamp has passed once this is closed; nil: at once
	broken error
}

func (c *stoppedClock) latest(context.Context) (int64, error) { return c.now, c.broken }

func (c *stoppedClock) grant(span truetime.Lease) error {
	c.span = span
	return nil
}

func (c *stoppedClock) begin(context.Context) (int64, func(context.Context) error, error) {
	c.given++
	return c.span.Lo + c.given - 1, func(context.Context) error {
		if c.passed != nil {
			<-c.passed
		}
		return c.broken
	}, nil
}

func (c *stoppedClock) close() {}

// begun has an agent with this clock win, and grants its first span.
func begun(t *testing.T, e *etcd, name string, clock clock) (*agent, *term, int64) {
	t.Helper()
	ctx := context.Background()
	a := &agent{name: name, prefix: "shard/1/", etcd: e, ttl: time.Second, span: 1000}
	lease, err := e.grantLease(ctx, time.Second)
	if err != nil {
		t.Fatal(err)
	}
	began := &term{clock: clock, lasts: ctx, failed: make(chan error, 1)}
	if began.number, err = a.win(ctx, lease); err != nil {
		t.Fatal(err)
	}
	if err := a.readRecord(ctx, began); err != nil {
		t.Fatal(err)
	}
	latest, _ := clock.latest(ctx)
	if err := a.extend(ctx, began, latest); err != nil {
		t.Fatal(err)
	}
	return a, began, lease
}

func TestASpanBeginsAboveEachEndThatWasRecorded(t *testing.T) {
	ctx := context.Background()
	_, e := newCluster(t)
	first := &stoppedClock{now: 5000}
	a, one, lease := begun(t, e, "A", first)
	if one.span != (truetime.Lease{Lo: 1, Hi: 6000}) {
		t.Error(one.span)
	}
	for _, step := range []struct{ latest, end int64 }{{5500, 6000}, {5501, 6501}, {5600, 6501}} {
		if err := a.extend(ctx, one, step.latest); err != nil || first.span != (truetime.Lease{Lo: 1, Hi: step.end}) {
			t.Error(step, first.span, err)
		}
	}
	if err := e.revoke(ctx, lease); err != nil {
		t.Fatal(err)
	}
	// The machine of the next leader shows an earlier time: nothing is granted until a span that begins above 6501 is short enough.
	second := &stoppedClock{now: 5400}
	b, two, _ := begun(t, e, "B", second)
	if b.current.Load() != nil || two.number <= one.number {
		t.Error("terms", one.number, two.number, "span", two.span)
	}
	if err := b.extend(ctx, two, 5502); err != nil || second.span != (truetime.Lease{Lo: 6502, Hi: 6502}) || b.current.Load() != two {
		t.Error(second.span, err)
	}
}

func TestALeaderThatWasReplacedGetsAndWritesNothing(t *testing.T) {
	ctx := context.Background()
	c, e := newCluster(t)
	a, one, lease := begun(t, e, "A", &stoppedClock{now: 5000})
	if number, err := a.win(ctx, lease+1); err != errDeposed {
		t.Error("the key is another one's:", number, err)
	}
	if err := e.revoke(ctx, lease); err != nil {
		t.Fatal(err)
	}
	if err := a.extend(ctx, one, 9000); !errors.Is(err, errDeposed) {
		t.Error("before another one leads:", err)
	}
	b, two, _ := begun(t, e, "B", &stoppedClock{now: 7000})
	if err := a.extend(ctx, one, 9000); !errors.Is(err, errDeposed) {
		t.Error("while another one leads:", err)
	}
	if stamp, _, err := a.commit(ctx, "k", "v"); !errors.Is(err, errDeposed) || stamp != 0 || !errors.Is(<-one.failed, errDeposed) {
		t.Error(stamp, err)
	}
	stamp, number, err := b.commit(ctx, "k", "w")
	if stamp != 6001 || number != two.number || err != nil {
		t.Error(stamp, number, err)
	}
	written := []string{}
	for key, found := range c.pairs {
		if strings.HasPrefix(key, "shard/1/data/") {
			written = append(written, key+" "+string(found.Value))
		}
	}
	if len(written) != 1 || !strings.HasPrefix(written[0], "shard/1/data/k/0000000000000006001 ") || !strings.HasSuffix(written[0], " w") {
		t.Error(written)
	}
}

func TestAnswersThatAreLost(t *testing.T) {
	ctx := context.Background()
	c, e := newCluster(t)
	c.lost = 1 // of the campaign
	a, one, _ := begun(t, e, "A", &stoppedClock{now: 5000})
	if leader := c.pairs["shard/1/leader"]; leader.CreateRevision != one.number {
		t.Error(leader, one.number)
	}
	c.lost = 1 // of a grant, which the other member is asked for again
	if err := a.extend(ctx, one, 6000); err != nil || one.span.Hi != 7000 {
		t.Error(one.span, err)
	}
	c.lost = 2 // of a grant that is done, and that nobody hears of
	if err := a.extend(ctx, one, 8000); !errors.Is(err, errNoAnswer) || one.span.Hi != 7000 {
		t.Error(one.span, err)
	}
	if err := a.extend(ctx, one, 8100); err != nil || one.span.Hi != 9000 {
		t.Error(one.span, err)
	}
	c.lost = 1 // of a write
	if _, _, err := a.commit(ctx, "k", "v"); err != nil {
		t.Error(err)
	}
}

func TestACommitIsAcknowledgedOnceItsStampHasPassed(t *testing.T) {
	_, e := newCluster(t)
	clock := &stoppedClock{now: 5000, passed: make(chan struct{})}
	a, one, _ := begun(t, e, "A", clock)
	done := make(chan error)
	go func() {
		_, _, err := a.commit(context.Background(), "k", "v")
		done <- err
	}()
	select {
	case err := <-done:
		t.Error("before it has passed:", err)
	case <-time.After(100 * time.Millisecond):
	}
	close(clock.passed)
	if err := <-done; err != nil {
		t.Error(err)
	}
	clock.broken = errors.New("the machine is gone")
	if stamp, _, err := a.commit(context.Background(), "k", "v"); err != clock.broken || stamp != 0 || <-one.failed != clock.broken {
		t.Error(stamp, err)
	}
	ended, end := context.WithCancel(context.Background())
	one.lasts = ended
	end()
	if _, _, err := a.commit(context.Background(), "k", "v"); err != errNotLeader {
		t.Error(err)
	}
}

func TestAnAgentWhoseMachineIsGoneDoesNotLead(t *testing.T) {
	c, e := newCluster(t)
	gone := errors.New("no machine")
	a := &agent{name: "A", prefix: "shard/1/", etcd: e, ttl: time.Second, span: 1000}
	a.openClock = func(context.Context) (clock, error) { return nil, gone }
	if err := a.campaign(context.Background()); err != gone || len(c.leases) != 0 {
		t.Error(err, c.leases)
	}
	a.openClock = func(context.Context) (clock, error) { return &stoppedClock{now: 5, broken: gone}, nil }
	if err := a.campaign(context.Background()); !errors.Is(err, gone) || len(c.pairs) != 0 || a.current.Load() != nil {
		t.Error(err, c.pairs)
	}
}

func TestVersions(t *testing.T) {
	r := &replica{keys: map[string][]version{}}
	for _, put := range [][2]string{{"a/k/7", "3 x"}, {"a/k/5", "3 y z"}, {"a/k/7", "3 x"}, {"a/k/9", "4 "}} {
		if err := r.apply(put[0], put[1]); err != nil {
			t.Error(put, err)
		}
	}
	for _, put := range [][2]string{{"k", "3 x"}, {"k/7", "x"}, {"k/-7", "3 x"}} {
		if r.apply(put[0], put[1]) == nil {
			t.Error(put)
		}
	}
	for at, wanted := range map[int64]string{5: "5 3 y z", 6: "5 3 y z", 8: "7 3 x", 100: "9 4 "} {
		if last, isThere := r.last("a/k", at); !isThere || last.String() != wanted {
			t.Error(at, last)
		}
	}
	if last, isThere := r.last("a/k", 4); isThere {
		t.Error(last)
	}
}
