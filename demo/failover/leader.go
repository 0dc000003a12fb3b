package main

import (
	"context"
	"errors"
	"fmt"
	"log"
	"strconv"
	"strings"
	"sync"
	"sync/atomic"
	"time"

	"example.org/truetime/clients/go/truetime"
)

const tick = 10 * time.Millisecond // between two looks of a leader or a candidate

var (
	errNotLeader = errors.New("this agent does not lead")
	errDeposed   = errors.New("another agent leads")
)

// An agent is one replica of a shard. It campaigns to lead it. What all agents agree on stands in etcd, below the prefix:
//
//	leader          the name of the leader, bound to its etcd lease; the create revision is the term
//	span            `END TERM`: the greatest end of a span that was ever granted, and the term that it was granted to
//	data/KEY/STAMP  `TERM VALUE`: a version of a key
type agent struct {
	name      string
	prefix    string
	etcd      *etcd
	ttl       time.Duration // of etcd's lease
	span      time.Duration // how far a span reaches ahead
	noSpans   bool          // the control: stamps lie where the machine puts them
	openClock func(context.Context) (clock, error)
	current   atomic.Pointer[term] // nil where this agent does not lead
}

// A term is one leadership of this agent.
type term struct {
	number   int64
	clock    clock
	span     truetime.Lease // all that was granted to it; Hi is below Lo where nothing was
	revision int64          // at which the record of spans was changed last
	lasts    context.Context
	failed   chan error   // why it cannot go on
	using    sync.RWMutex // commits hold it for reading
}

func (a *agent) leaderKey() string { return a.prefix + "leader" }
func (a *agent) spanKey() string   { return a.prefix + "span" }
func (a *agent) dataKey() string   { return a.prefix + "data/" }

// run campaigns and leads, again and again, until the context ends.
func (a *agent) run(ctx context.Context) {
	for ctx.Err() == nil {
		leader, err := a.etcd.get(ctx, a.leaderKey())
		if err == nil && leader.CreateRevision == 0 {
			err = a.campaign(ctx)
		}
		if err != nil && ctx.Err() == nil {
			log.Print(err)
		}
		sleep(ctx, 2*tick)
	}
}

// campaign tries to become the leader, and leads then until that ends. An agent whose machine gives no time does not try.
func (a *agent) campaign(ctx context.Context) error {
	clock, err := a.openClock(ctx)
	if err != nil {
		return err
	}
	t := &term{clock: clock, failed: make(chan error, 1)}
	defer func() { go t.close() }()
	ctx, cancel := context.WithCancel(ctx)
	defer cancel()
	lease, err := a.etcd.grantLease(ctx, a.ttl)
	if err != nil {
		return err
	}
	defer a.resign(lease)
	if t.number, err = a.win(ctx, lease); err != nil {
		return err
	}
	t.lasts = ctx
	log.Printf("term %d begins", t.number)
	err = a.lead(ctx, t, lease)
	a.current.Store(nil)
	return fmt.Errorf("term %d ends: %w", t.number, err)
}

// win puts the leader's key where there is none, and gives its create revision.
func (a *agent) win(ctx context.Context, lease int64) (int64, error) {
	put := []object{putting(a.leaderKey(), a.name, lease)}
	found, err := a.etcd.try(ctx, []object{createdAt(a.leaderKey(), 0)}, put, a.leaderKey())
	switch {
	case err != nil:
		return 0, err
	case found.isDone:
		return found.revision, nil
	case found.pairs[0].Lease == lease: // an answer was lost, and this had been done
		return found.pairs[0].CreateRevision, nil
	}
	return 0, errDeposed
}

// resign ends the lease, and with it the leader's key. Where etcd does not answer, the lease runs out.
func (a *agent) resign(lease int64) {
	ctx, cancel := context.WithTimeout(context.Background(), a.ttl)
	defer cancel()
	if err := a.etcd.revoke(ctx, lease); err != nil {
		log.Printf("revoke: %v", err)
	}
}

// lead keeps the lease and the span ahead of the time until the term ends. Where etcd does not answer it goes on: the stamps end
// with the span, and nothing is written without etcd.
func (a *agent) lead(ctx context.Context, t *term, lease int64) error {
	if err := a.readRecord(ctx, t); err != nil {
		return err
	}
	for kept := time.Now(); ; {
		latest, err := t.clock.latest(ctx)
		if err != nil {
			return fmt.Errorf("no time: %w", err)
		}
		err = a.extend(ctx, t, latest)
		if err == nil && time.Since(kept) > a.ttl/4 {
			kept = time.Now()
			err = a.etcd.keepAlive(ctx, lease)
		}
		if errors.Is(err, errNoAnswer) {
			log.Print(err)
		} else if err != nil {
			return err
		}
		select {
		case err := <-t.failed:
			return err
		case <-ctx.Done():
			return ctx.Err()
		case <-time.After(tick):
		}
	}
}

// readRecord has the term's span begin above each end that was ever recorded. It comes after the campaign, so no other term
// records one any more.
func (a *agent) readRecord(ctx context.Context, t *term) error {
	record, err := a.etcd.get(ctx, a.spanKey())
	if err != nil {
		return err
	}
	end, _, err := parseRecord(record)
	t.span, t.revision = truetime.Lease{Lo: end + 1, Hi: end}, record.ModRevision
	return err
}

// extend has the term's span end further on where less than half of it is left. A span begins less than its length ahead of
// the time, else the next look grants it.
func (a *agent) extend(ctx context.Context, t *term, latest int64) error {
	span, isNew := int64(a.span), t.span.Hi < t.span.Lo
	if a.noSpans && isNew {
		t.span = truetime.Lease{Lo: 0, Hi: truetime.MaxTime}
	} else if end := latest + span; t.span.Hi < end && (isNew || t.span.Hi < latest+span/2) {
		if err := a.grant(ctx, t, end); err != nil {
			return err
		}
	} else {
		return nil
	}
	if err := t.clock.grant(t.span); err != nil {
		return err
	}
	a.current.Store(t)
	return nil
}

// grant records an end of the term's span, if this term's agent still leads and the record is as it was.
func (a *agent) grant(ctx context.Context, t *term, end int64) error {
	compare := []object{createdAt(a.leaderKey(), t.number), changedAt(a.spanKey(), t.revision)}
	put := []object{putting(a.spanKey(), fmt.Sprint(end, t.number), 0)}
	found, err := a.etcd.try(ctx, compare, put, a.leaderKey(), a.spanKey())
	if err != nil {
		return err
	}
	if found.isDone {
		t.span.Hi, t.revision = end, found.revision
		return nil
	}
	recorded, holder, err := parseRecord(found.pairs[1])
	if err != nil || found.pairs[0].CreateRevision != t.number || holder != t.number {
		return errDeposed
	}
	// An answer was lost, and this had been done.
	t.span.Hi, t.revision = recorded, found.pairs[1].ModRevision
	return nil
}

// parseRecord reads the record of spans; none is `0 0`.
func parseRecord(record pair) (end, term int64, err error) {
	if record.ModRevision == 0 {
		return 0, 0, nil
	}
	first, second, _ := strings.Cut(string(record.Value), " ")
	if end, err = parseTime(first); err == nil {
		term, err = strconv.ParseInt(second, 10, 64)
	}
	if err != nil {
		return 0, 0, fmt.Errorf("the record of spans: %w", err)
	}
	return end, term, nil
}

// commit writes a value under a stamp of the current term, and returns once that has surely passed: only then may anybody be
// told. After an error the value may have been written, too.
func (a *agent) commit(ctx context.Context, key, value string) (stamp int64, number int64, err error) {
	t := a.current.Load()
	if t == nil {
		return 0, 0, errNotLeader
	}
	t.using.RLock()
	defer t.using.RUnlock()
	if t.lasts.Err() != nil {
		return 0, 0, errNotLeader
	}
	stamp, wait, err := t.clock.begin(t.lasts)
	var refusal truetime.Refusal
	if errors.As(err, &refusal) { // the span is over, say: later perhaps
		return 0, 0, err
	} else if err != nil {
		return 0, 0, t.fail(err)
	}
	written := a.write(ctx, t, key, value, stamp)
	if err := wait(ctx); err != nil {
		return 0, 0, t.fail(err)
	}
	if errors.Is(written, errDeposed) {
		return 0, 0, t.fail(written)
	}
	return stamp, t.number, written
}

// write puts a version of a key, if this term's agent still leads. Its key has the stamp, so it may be put more than once.
func (a *agent) write(ctx context.Context, t *term, key, value string, stamp int64) error {
	name := fmt.Sprintf("%s%s/%019d", a.dataKey(), key, stamp)
	put := []object{putting(name, fmt.Sprint(t.number)+" "+value, 0)}
	found, err := a.etcd.try(ctx, []object{createdAt(a.leaderKey(), t.number)}, put)
	if err == nil && !found.isDone {
		return errDeposed
	}
	return err
}

// fail ends the term for this reason.
func (t *term) fail(reason error) error {
	select {
	case t.failed <- reason:
	default:
	}
	return reason
}

// close waits for the commits that have begun in a term that has ended, and closes the clock.
func (t *term) close() {
	t.using.Lock()
	defer t.using.Unlock()
	t.clock.close()
}

func sleep(ctx context.Context, pause time.Duration) {
	select {
	case <-ctx.Done():
	case <-time.After(pause):
	}
}
