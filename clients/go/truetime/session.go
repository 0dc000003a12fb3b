package truetime

import (
	"context"
	"errors"
	"fmt"
	"io"
	"net"
	"os"
	"sync"
	"sync/atomic"
	"syscall"
	"time"
)

// LongWait is how long a commit waits before a Logger is told.
const LongWait = time.Second

// A Logger is told what a session meets: a text, and names with their values, as log/slog has them.
type Logger interface {
	Info(text string, args ...any)
	Warn(text string, args ...any)
}

// silent is the Logger of a session without one.
type silent struct{}

func (silent) Info(string, ...any) {}
func (silent) Warn(string, ...any) {}

// Timeout is how long connecting, and each reply, may take, unless SetTimeout says otherwise.
const Timeout = 30 * time.Second

const (
	lineBytes    = 64                   // the most bytes of a line and of a reply, without the line feed
	pause        = time.Millisecond     // before a line is sent again
	connectPause = 5 * time.Millisecond // before connecting again to a Unix socket at which as many wait as may
)

// A Session is a connection to the service: one line and its reply at a time. Calls of several goroutines take turns. A
// session has one commit at a time, so each goroutine that commits wants a session of its own, or one of a Pool.
//
// A call ends when its context does, with the context's error, and the session goes on. If its line was sent, the reply is
// still to come: the next call waits for it, and drops it. A call that was cancelled may have been done:
//
//   - After Wait, call Wait again: the service says the same of the same commit. Begin and Commit fail with a PendingError
//     before that.
//   - After Begin or Commit, nobody has the timestamp, and no other commit gets it, since it may be too early for one that
//     comes later: where that commit is pending, the next one has the service release it first. So it is after a refusal, too.
//   - After Lease, the lease is the old one or the new one.
//
// If no reply comes in time, or the connection fails otherwise, a call fails with a BrokenError. The next call connects anew,
// to a new session of the service. So does a call that finds the connection ended before its line was sent, as behind a pause,
// unless a commit of Begin is pending or a lease was set. No line is sent a second time by that: the last commit is forgotten,
// and Wait fails with ErrNoCommit. Nor is the lease set again: once Lease was called, Begin and Commit refuse with LeaseOver as
// long as the connection has no lease.
type Session struct {
	network, address string
	timeout          atomic.Int64
	maxWidth         atomic.Int64
	logger           atomic.Pointer[Logger]
	turn             chan struct{} // full while a call is under way
	closed           chan struct{}
	closeOnce        sync.Once
	link             atomic.Pointer[link] // nil where there is no connection; set by the call whose turn it is

	// The rest is of the call whose turn it is.
	wantsLease bool // whether a lease was ever asked for: then no commit begins without one

	// And this belongs to the connection.
	judge    func(reply string) error // of the reply that is owed, also a late one; nil where none is
	began    time.Time                // when that of the last line did, with connecting anew
	last     commit
	hasLease bool
}

// A link is a connection.
type link struct {
	conn      net.Conn
	replies   chan reply  // what was received
	asked     atomic.Bool // whether a reply is to come
	ended     chan struct{}
	closeOnce sync.Once
}

// A reply is one line of the service, or why there will be none.
type reply struct {
	text string
	err  error
}

// A commit is the last one that the service may have begun. Commits are counted from 1.
type commit struct {
	number    int64
	stamp     int64
	isStamped bool // whether the timestamp is known
	isPending bool // whether it may not be released
	isTold    bool // whether a caller may wait for it
	isGiven   bool // whether Begin gave its timestamp to a caller
}

// Dial connects to the service. The network is "tcp" (an address as "127.0.0.1:5601") or "unix" (a path). Close the session
// in the end: each connection keeps a goroutine. It fails with a BrokenError that has the error of package net, or with that of the
// context, and where there is no such network with net.UnknownNetworkError.
func Dial(ctx context.Context, network, address string) (*Session, error) {
	switch network {
	case "tcp", "tcp4", "tcp6", "unix":
	default:
		return nil, net.UnknownNetworkError(network)
	}
	s := &Session{network: network, address: address, turn: make(chan struct{}, 1), closed: make(chan struct{})}
	s.SetTimeout(Timeout)
	s.maxWidth.Store(MaxTime)
	if _, err := s.connect(ctx); err != nil {
		if ctx.Err() != nil {
			return nil, ctx.Err()
		}
		if errors.Is(err, context.DeadlineExceeded) { // which the context may learn later
			return nil, context.DeadlineExceeded
		}
		return nil, &BrokenError{Err: err}
	}
	return s, nil
}

// connect makes a connection where there is none.
func (s *Session) connect(ctx context.Context) (*link, error) {
	ctx, cancel := context.WithCancel(ctx)
	defer cancel()
	go func() {
		select {
		case <-s.closed:
			cancel()
		case <-ctx.Done():
		}
	}()
	conn, err := s.dial(ctx)
	if err != nil {
		return nil, err
	}
	made := &link{conn: conn, replies: make(chan reply, 1), ended: make(chan struct{})}
	s.link.Store(made)
	go made.receiveAll()
	select {
	case <-s.closed:
		made.close()
	default:
	}
	return made, nil
}

// dial connects. Where as many wait at a Unix socket as may, the system says so at once, so it is tried again.
func (s *Session) dial(ctx context.Context) (net.Conn, error) {
	dialer := net.Dialer{}
	if timeout := time.Duration(s.timeout.Load()); timeout > 0 {
		dialer.Deadline = time.Now().Add(timeout)
	}
	for {
		conn, err := dialer.DialContext(ctx, s.network, s.address) // which sets TCP_NODELAY
		if !errors.Is(err, syscall.EAGAIN) {
			return conn, err
		}
		select {
		case <-ctx.Done():
			return nil, ctx.Err()
		case <-time.After(connectPause):
		}
	}
}

// SetLogger sets who is told that the session connected anew (Info), what was refused (Info), that its connection failed, and
// that a commit waits for more than LongWait (Warn). A *slog.Logger is one.
func (s *Session) SetLogger(logger Logger) { s.logger.Store(&logger) }

func (s *Session) log() Logger {
	if logger := s.logger.Load(); logger != nil && *logger != nil {
		return *logger
	}
	return silent{}
}

// isIdle says whether the session is connected, as far as can be seen, and no commit of it is pending and no reply owed.
func (s *Session) isIdle() bool {
	select {
	case s.turn <- struct{}{}:
		defer func() { <-s.turn }()
	default:
		return false
	}
	link := s.link.Load()
	return s.ended(context.Background()) == nil && link != nil && s.judge == nil && !s.last.isPending &&
		len(link.replies) == 0 && !hasEnded(link.conn)
}

// SetTimeout sets how long the reply to a line, and connecting anew, may take; 0 or less is without end.
func (s *Session) SetTimeout(timeout time.Duration) { s.timeout.Store(int64(timeout)) }

// SetMaxWidth has readings that are wider than this refused with ReadingTooWide, also where the machine allows them: Now looks at
// each, After and Before compare with one of Now, and before a commit begins one is asked for.
func (s *Session) SetMaxWidth(width time.Duration) { s.maxWidth.Store(int64(width)) }

// isLimited says whether it has a greatest width.
func (s *Session) isLimited() bool { return s.maxWidth.Load() < MaxTime }

// Close ends the session for good, and a call that is under way, which fails. A commit that is not released then is never
// known as released.
func (s *Session) Close() error {
	s.closeOnce.Do(func() { close(s.closed) })
	if link := s.link.Load(); link != nil {
		return link.close()
	}
	return nil
}

func (l *link) close() error {
	err := net.ErrClosed
	l.closeOnce.Do(func() {
		close(l.ended)
		err = l.conn.Close()
	})
	if errors.Is(err, net.ErrClosed) {
		return nil
	}
	return err
}

// Now gives the time now.
func (s *Session) Now(ctx context.Context) (Interval, error) {
	now := allTimes
	err := s.inTurn(ctx, func() (err error) {
		now, err = s.now(ctx)
		return err
	})
	return now, err
}

// now is Now of the call whose turn it is.
func (s *Session) now(ctx context.Context) (Interval, error) {
	reply, err := s.question(ctx, "now", isInterval)
	if err != nil {
		return allTimes, err
	}
	numbers, _ := numbersBehind(reply, "now", 2)
	if numbers[1]-numbers[0] > s.maxWidth.Load() {
		return allTimes, ReadingTooWide
	}
	return Interval{numbers[0], numbers[1]}, nil
}

// After says whether time t has surely passed. It fails with ErrNegative.
func (s *Session) After(ctx context.Context, t int64) (bool, error) {
	return s.compare(ctx, "after", t)
}

// Before says whether time t has surely not arrived. It fails with ErrNegative.
func (s *Session) Before(ctx context.Context, t int64) (bool, error) {
	return s.compare(ctx, "before", t)
}

func (s *Session) compare(ctx context.Context, word string, t int64) (bool, error) {
	if t < 0 {
		return false, ErrNegative
	}
	isSo, line := false, lineOf(word, t)
	err := s.inTurn(ctx, func() error {
		if s.isLimited() {
			now, err := s.now(ctx)
			isSo = word == "after" && now.After(t) || word == "before" && now.Before(t)
			return err
		}
		reply, err := s.question(ctx, line, isYesOrNo)
		isSo = reply == "yes"
		return err
	})
	return isSo, err
}

// Begin begins a commit, and gives its timestamp, no less than floor, and whether it is released already, so that Wait sends
// nothing. It fails with ErrNegative, with a PendingError before the last commit that it began is known as released, and refuses with LeaseOver
// where the lease is over or was lost with its connection: set it again. One that Commit left pending is ended first.
func (s *Session) Begin(ctx context.Context, floor int64) (stamp int64, isCommitted bool, err error) {
	err = s.inTurn(ctx, func() error {
		if err := s.begin(ctx, floor); err != nil {
			return err
		}
		s.last.isGiven = true
		stamp, isCommitted = s.last.stamp, !s.last.isPending
		return nil
	})
	return stamp, isCommitted, err
}

// Wait waits until the timestamp of the commit has surely passed, and gives it: only then may anybody be told of the commit.
// After a refusal, or where the context ended, it may be called again. It fails with ErrNoCommit where no commit was begun, or
// the connection of the last one failed.
func (s *Session) Wait(ctx context.Context) (stamp int64, err error) {
	err = s.inTurn(ctx, func() (err error) {
		stamp, err = s.wait(ctx)
		return err
	})
	return stamp, err
}

// Commit begins a commit, waits for its release, and gives its timestamp, with the errors of Begin and Wait. Where it fails
// while it waits, the commit stays pending, and nobody has its timestamp: Wait goes on with it, and the next Commit or Begin
// waits for its release first, and then begins another one.
func (s *Session) Commit(ctx context.Context, floor int64) (stamp int64, err error) {
	err = s.inTurn(ctx, func() error {
		err := s.begin(ctx, floor)
		if err == nil {
			stamp, err = s.wait(ctx)
		}
		return err
	})
	return stamp, err
}

// Lease sets the lease of this session: the timestamps of commits that begin from now on lie from lo to hi, both included.
// After a refusal, or ErrNegative, the lease is what it was; where there was none, Begin and Commit refuse with LeaseOver until one is
// set, also after a refusal.
func (s *Session) Lease(ctx context.Context, lo, hi int64) error {
	if lo < 0 || hi < 0 {
		return ErrNegative
	}
	return s.inTurn(ctx, func() error {
		s.wantsLease = true
		_, err := s.question(ctx, lineOf("lease", lo, hi), func(reply string) bool {
			isSet := reply == lineOf("leased", lo, hi)
			s.hasLease = s.hasLease || isSet
			return isSet
		})
		return err
	})
}

// Ask sends one line and gives its reply, both without the line feed; "refused N" is a reply like another. Begin no commit and
// set no lease by it: the other calls do not know of that.
func (s *Session) Ask(ctx context.Context, line string) (string, error) {
	if len(line) > lineBytes || !isPrintable(line) {
		return "", ErrBadLine
	}
	text := ""
	err := s.inTurn(ctx, func() (err error) {
		text, err = s.exchange(ctx, line, func(string) error { return nil })
		return err
	})
	return text, err
}

// Commits.

func (s *Session) begin(ctx context.Context, floor int64) error {
	if floor < 0 {
		return ErrNegative
	}
	if s.last.isPending && s.last.isGiven {
		return &PendingError{s.last.number, s.last.stamp}
	}
	if s.isLimited() {
		if _, err := s.now(ctx); err != nil {
			return err
		}
	}
	s.last.isTold = false
	if s.last.isPending && s.last.isStamped {
		if err := s.end(ctx); err != nil {
			return err
		}
	}
	err := s.sendBegin(ctx, floor)
	if err == CommitPending && s.last.isPending { // it began, though it was refused
		if err = s.end(ctx); err == nil {
			err = s.sendBegin(ctx, floor)
		}
	}
	s.last.isTold = err == nil
	return err
}

// end waits for the release of a commit whose timestamp nobody has.
func (s *Session) end(ctx context.Context) error {
	if err := s.release(ctx); !isUnknown(err) {
		return err
	}
	return nil
}

// sendBegin sends the first line of the next commit.
func (s *Session) sendBegin(ctx context.Context, floor int64) error {
	if s.wantsLease && !s.hasLease {
		return LeaseOver
	}
	number := s.last.number + 1
	line := lineOf("commit", number, floor)
	_, err := s.exchange(ctx, line, func(reply string) error {
		if refusal, ok := refusalIn(reply); ok {
			if !refusal.neverBegins() {
				s.last = commit{number: number, isPending: true}
			}
			return refusal
		}
		stamp, isCommitted, ok := stampIn(reply, number)
		if !ok || stamp < floor {
			return noReply(line, reply)
		}
		s.last = commit{number: number, stamp: stamp, isStamped: true, isPending: !isCommitted}
		return nil
	})
	return err
}

func (s *Session) wait(ctx context.Context) (int64, error) {
	if !s.last.isTold {
		return 0, ErrNoCommit
	}
	if err := s.release(ctx); err != nil {
		return 0, err
	}
	return s.last.stamp, nil
}

// release sends the line of the last commit until it is known as released. One of which the service does not know is forgotten,
// with the connection.
func (s *Session) release(ctx context.Context) error {
	began, isTold := time.Now(), false
	for s.last.isPending {
		if err := s.sendAgain(ctx); err != nil {
			if isUnknown(err) {
				s.fail(err)
			}
			return err
		}
		if !s.last.isPending {
			return nil
		}
		if !isTold && time.Since(began) > LongWait {
			isTold = true
			s.log().Warn("truetime: a commit waits for long", "address", s.address, "timestamp", s.last.stamp)
		}
		timer := time.NewTimer(pause)
		select {
		case <-timer.C:
		case <-ctx.Done():
			timer.Stop()
			return ctx.Err()
		case <-s.closed:
			timer.Stop()
			return &BrokenError{Err: net.ErrClosed}
		}
	}
	return nil
}

// sendAgain sends the line of the last commit.
func (s *Session) sendAgain(ctx context.Context) error {
	number := s.last.number
	_, err := s.question(ctx, lineOf("commit", number, 0), func(reply string) bool {
		stamp, isCommitted, ok := stampIn(reply, number)
		if !ok || (s.last.isStamped && stamp != s.last.stamp) {
			return false
		}
		s.last.stamp, s.last.isStamped, s.last.isPending = stamp, true, !isCommitted
		return true
	})
	return err
}

// Lines and replies.

// inTurn makes a call once the others have ended, and the reply that is owed to one of them has come.
func (s *Session) inTurn(ctx context.Context, call func() error) error {
	if err := s.ended(ctx); err != nil {
		return err
	}
	select {
	case s.turn <- struct{}{}:
		defer func() { <-s.turn }()
	case <-ctx.Done():
		return ctx.Err()
	case <-s.closed:
	}
	if err := s.ended(ctx); err != nil {
		return err
	}
	if s.judge != nil {
		if _, err := s.receive(ctx, s.link.Load()); err != nil && !isRefusal(err) {
			return err
		}
	}
	if err := s.notice(); err != nil {
		return err
	}
	return call()
}

// notice gives up a connection that has ended since the last reply, or on which something came that nobody asked for. It fails
// where that loses what the caller has to make good.
func (s *Session) notice() error {
	link := s.link.Load()
	if link == nil || (len(link.replies) == 0 && !hasEnded(link.conn)) {
		return nil
	}
	select {
	case got := <-link.replies:
		if broken := s.fail(got.err); broken.Commit != 0 || broken.LostLease {
			return broken
		}
		return nil
	case <-s.closed:
		return &BrokenError{Err: net.ErrClosed}
	}
}

// ended says whether the session or the context has ended.
func (s *Session) ended(ctx context.Context) error {
	select {
	case <-s.closed:
		return &BrokenError{Err: net.ErrClosed}
	default:
		return ctx.Err()
	}
}

// question sends one line and gives its reply, which is no refusal.
func (s *Session) question(ctx context.Context, line string, isReply func(reply string) bool) (string, error) {
	return s.exchange(ctx, line, func(reply string) error {
		if refusal, ok := refusalIn(reply); ok {
			return refusal
		}
		if !isReply(reply) {
			return noReply(line, reply)
		}
		return nil
	})
}

// exchange sends one line, and gives its reply once it is judged: a refusal is an error, and so is what is no reply, which
// breaks the session. Where the context ends before, the reply is owed: the next call has it judged, and drops it.
func (s *Session) exchange(ctx context.Context, line string, judge func(reply string) error) (string, error) {
	s.began = time.Now()
	link := s.link.Load()
	if link == nil {
		made, err := s.connect(ctx)
		if err != nil && ctx.Err() != nil {
			return "", ctx.Err()
		}
		if err != nil {
			return "", s.fail(err)
		}
		s.log().Info("truetime: connected anew", "address", s.address)
		link = made
	}
	select {
	case got := <-link.replies:
		return "", s.fail(got.err) // the connection has ended since the last reply
	default:
	}
	var deadline time.Time
	if timeout := time.Duration(s.timeout.Load()); timeout > 0 {
		deadline = s.began.Add(timeout)
	}
	if err := link.conn.SetWriteDeadline(deadline); err != nil {
		return "", s.fail(err)
	}
	link.asked.Store(true)
	s.judge = judge
	// One line at a time fits into what the system holds, so this does not wait.
	if _, err := link.conn.Write(append([]byte(line), '\n')); err != nil {
		return "", s.fail(err)
	}
	return s.receive(ctx, link)
}

// receive waits for the reply that is owed, and has it judged.
func (s *Session) receive(ctx context.Context, link *link) (string, error) {
	got, err := s.await(ctx, link)
	if err != nil {
		return "", err
	}
	if got.err != nil {
		return "", s.fail(got.err)
	}
	judge := s.judge
	s.judge = nil
	if err := judge(got.text); isRefusal(err) {
		s.log().Info("truetime: refused", "address", s.address, "refusal", err)
		return "", err
	} else if err != nil {
		return "", s.fail(err)
	}
	return got.text, nil
}

func (s *Session) await(ctx context.Context, link *link) (reply, error) {
	select {
	case got := <-link.replies:
		return got, nil
	default:
	}
	var late <-chan time.Time
	if timeout := time.Duration(s.timeout.Load()); timeout > 0 {
		timer := time.NewTimer(time.Until(s.began.Add(timeout)))
		defer timer.Stop()
		late = timer.C
	}
	select {
	case got := <-link.replies:
		return got, nil
	case <-ctx.Done():
		return reply{}, ctx.Err()
	case <-late:
		return reply{}, s.fail(os.ErrDeadlineExceeded)
	case <-s.closed:
		return reply{}, &BrokenError{Err: net.ErrClosed}
	}
}

// fail gives the connection up, and all that belongs to it.
func (s *Session) fail(err error) *BrokenError {
	link := s.link.Swap(nil)
	if link != nil {
		link.close()
	}
	broken := &BrokenError{Err: err, LostLease: s.hasLease}
	if s.last.isPending && s.last.isGiven {
		broken.Commit, broken.Stamp = s.last.number, s.last.stamp
	}
	s.judge, s.last, s.hasLease = nil, commit{}, false
	if s.ended(context.Background()) != nil {
		broken.Err = net.ErrClosed
	} else if link != nil {
		s.log().Warn("truetime: the connection failed", "address", s.address, "err", broken.Err)
	}
	return broken
}

// receiveAll receives replies until the connection ends, or what comes is no reply.
func (l *link) receiveAll() {
	var buffer [lineBytes + 1]byte
	for length := 0; ; {
		received, err := l.conn.Read(buffer[length:])
		length += received
		got, isWhole := replyIn(buffer[:length])
		switch {
		case received == 0 && err == io.EOF:
			got = reply{err: io.ErrUnexpectedEOF}
		case received == 0 && err != nil:
			got = reply{err: err}
		case received > 0 && !l.asked.Load():
			got = reply{err: fmt.Errorf("%w: nothing was asked", ErrReply)}
		case !isWhole:
			continue
		}
		length = 0
		l.asked.Store(false)
		select {
		case l.replies <- got:
		case <-l.ended:
			return
		}
		if got.err != nil {
			return
		}
	}
}
