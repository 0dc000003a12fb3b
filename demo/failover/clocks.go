package main

import (
	"context"
	"errors"
	"fmt"
	"os"
	"strconv"
	"sync"
	"time"

	"example.org/truetime/clients/go/truetime"
)

// A clock is one machine's time, and its stamps in the span of one term.
type clock interface {
	// latest gives the latest time that it may be now. It fails where the machine does not run.
	latest(ctx context.Context) (int64, error)
	// grant has the stamps of commits that begin from now on lie in this span, which begins where the last one did, and
	// ends above that.
	grant(span truetime.Lease) error
	// begin gives the stamp of a commit, and a call that has to be made, and that returns once the stamp has surely passed.
	begin(ctx context.Context) (stamp int64, wait func(context.Context) error, err error)
	close()
}

// A sessionClock stamps by sessions of the machine, within the leases of these.
type sessionClock struct {
	asking *truetime.Session
	idle   chan *leased // those that have no commit
	all    []*leased

	mutex sync.Mutex
	span  truetime.Lease
}

// A leased session has been told of a lease, the whole of time at first.
type leased struct {
	*truetime.Session
	told truetime.Lease
}

// openSessions connects to a machine, which has to give the time. A machine that is started anew does not know the stamps that
// it gave before, so one life gives all stamps of a term: all sessions are opened before one of them is used, each has a lease,
// since one without would connect anew by itself, and where one fails all are closed.
func openSessions(ctx context.Context, address string, number int, timeout time.Duration) (clock, error) {
	c := &sessionClock{idle: make(chan *leased, number), span: truetime.Lease{Lo: 0, Hi: truetime.MaxTime}}
	for len(c.all) <= number {
		session, err := truetime.Dial(ctx, "tcp", address)
		if err != nil {
			c.close()
			return nil, err
		}
		session.SetTimeout(timeout)
		c.all = append(c.all, &leased{session, c.span})
	}
	c.asking = c.all[number].Session
	for _, session := range c.all { // so the first one opened was open still when the last one was
		err := session.Lease(ctx, c.span.Lo, c.span.Hi)
		if err == nil {
			_, err = session.Now(ctx)
		}
		if err != nil {
			c.close()
			return nil, err
		}
	}
	for _, session := range c.all[:number] {
		c.idle <- session
	}
	return c, nil
}

// check passes on what a call of a session gave. A session that failed connects anew with its next call, perhaps to another
// life of the machine; one that is closed does not.
func (c *sessionClock) check(err error) error {
	var broken *truetime.BrokenError
	if errors.As(err, &broken) {
		c.close()
	}
	return err
}

// latest also asks by one idle session after the other, so that the machine closes none for being silent.
func (c *sessionClock) latest(ctx context.Context) (int64, error) {
	select {
	case session := <-c.idle:
		_, err := session.Now(ctx)
		err = c.check(err)
		c.idle <- session
		if err != nil {
			return 0, err
		}
	default:
	}
	now, err := c.asking.Now(ctx)
	return now.Latest, c.check(err)
}

func (c *sessionClock) grant(span truetime.Lease) error {
	c.mutex.Lock()
	defer c.mutex.Unlock()
	c.span = span
	return nil
}

func (c *sessionClock) begin(ctx context.Context) (int64, func(context.Context) error, error) {
	var session *leased
	select {
	case session = <-c.idle:
	case <-ctx.Done():
		return 0, nil, ctx.Err()
	}
	c.mutex.Lock()
	span := c.span
	c.mutex.Unlock()
	stamp, err := session.begin(ctx, span)
	if err != nil {
		err = c.check(err)
		c.idle <- session
		return 0, nil, err
	}
	wait := func(ctx context.Context) error {
		defer func() { c.idle <- session }()
		_, err := session.Wait(ctx)
		return c.check(err)
	}
	return stamp, wait, nil
}

func (s *leased) begin(ctx context.Context, span truetime.Lease) (int64, error) {
	if s.told != span {
		if err := s.Lease(ctx, span.Lo, span.Hi); err != nil {
			return 0, err
		}
		s.told = span
	}
	stamp, _, err := s.Begin(ctx, 0)
	return stamp, err
}

func (c *sessionClock) close() {
	for _, session := range c.all {
		session.Close()
	}
}

// A stamperClock stamps in this process, by the file that the machine shares. A stamper has one lease for good, so each part of
// the span has a stamper of its own. A part is used once the one before it is over.
type stamperClock struct {
	client *truetime.Client

	mutex sync.Mutex
	parts []*truetime.Stamper // those that are not over, the earliest first
	end   int64               // of the last part
}

func openStampers(path string) (clock, error) {
	client, err := truetime.Open(path, strconv.Itoa(os.Geteuid()))
	if err != nil {
		return nil, err
	}
	c := &stamperClock{client: client}
	if _, err := c.latest(context.Background()); err != nil {
		c.close()
		return nil, err
	}
	return c, nil
}

func (c *stamperClock) latest(context.Context) (int64, error) {
	now, err := c.client.Now()
	if err == nil && !now.Fresh {
		err = fmt.Errorf("the machine is late or gone")
	}
	return now.Latest, err
}

func (c *stamperClock) grant(span truetime.Lease) error {
	c.mutex.Lock()
	defer c.mutex.Unlock()
	part := span
	if part.Lo <= c.end {
		part.Lo = c.end + 1
	}
	stamper, err := truetime.NewStamperWithLease(c.client, part)
	if err == nil {
		c.parts, c.end = append(c.parts, stamper), part.Hi
	}
	return err
}

func (c *stamperClock) begin(context.Context) (int64, func(context.Context) error, error) {
	stamper, given, err := c.stamp()
	if err != nil {
		return 0, nil, err
	}
	return given.Timestamp, func(ctx context.Context) error {
		_, err := stamper.WaitPast(ctx, given.Timestamp)
		return err
	}, nil
}

func (c *stamperClock) stamp() (*truetime.Stamper, truetime.Stamp, error) {
	c.mutex.Lock()
	defer c.mutex.Unlock()
	for ; len(c.parts) > 0; c.parts = c.parts[1:] {
		given, err := c.parts[0].Stamp(0)
		if !errors.Is(err, truetime.LeaseOver) {
			return c.parts[0], given, err
		}
	}
	return nil, truetime.Stamp{}, truetime.LeaseOver
}

func (c *stamperClock) close() { c.client.Close() }
