package truetime

import (
	"bufio"
	"context"
	"errors"
	"fmt"
	"io"
	"io/fs"
	"math"
	"net"
	"os"
	"strings"
	"syscall"
	"testing"
	"time"
)

var always = context.Background()

// A standIn plays the service on one connection.
type standIn struct {
	t     *testing.T
	conn  net.Conn
	lines *bufio.Scanner
}

// dialStandIn gives a session with a stand-in for the service, which plays this conversation. The test ends when both have.
func dialStandIn(t *testing.T, play func(s *standIn)) *Session {
	t.Helper()
	listener, err := net.Listen("tcp", "127.0.0.1:0")
	if err != nil {
		t.Fatal(err)
	}
	played := make(chan struct{})
	go func() {
		defer close(played)
		defer listener.Close()
		conn, err := listener.Accept()
		if err != nil {
			t.Error(err)
			return
		}
		defer conn.Close()
		conn.SetDeadline(time.Now().Add(30 * time.Second))
		s := &standIn{t, conn, bufio.NewScanner(conn)}
		play(s)
		if s.lines.Scan() {
			t.Errorf("%q came behind the last line", s.lines.Text())
		}
	}()
	session, err := Dial(always, "tcp", listener.Addr().String())
	if err != nil {
		t.Fatal(err)
	}
	t.Cleanup(func() {
		session.Close()
		<-played
	})
	return session
}

// hear reads one line, which has to be this one.
func (s *standIn) hear(line string) {
	if !s.lines.Scan() || s.lines.Text() != line {
		s.t.Errorf("%q came in place of %q", s.lines.Text(), line)
	}
}

func (s *standIn) say(reply string) { io.WriteString(s.conn, reply+"\n") }

// answer hears lines and says their replies, in turn.
func (s *standIn) answer(linesAndReplies ...string) {
	for place := 0; place < len(linesAndReplies); place += 2 {
		s.hear(linesAndReplies[place])
		s.say(linesAndReplies[place+1])
	}
}

// cancelled makes a call whose context ends once the stand-in has heard its line.
func cancelled(t *testing.T, heard <-chan struct{}, call func(ctx context.Context) error) {
	t.Helper()
	ctx, cancel := context.WithCancel(always)
	go func() {
		<-heard
		cancel()
	}()
	if err := call(ctx); !errors.Is(err, context.Canceled) {
		t.Fatal(err)
	}
}

func wantStamp(t *testing.T, want, stamp int64, err error) {
	t.Helper()
	if stamp != want || err != nil {
		t.Fatal(stamp, err, "in place of", want)
	}
}

func wantBroken(t *testing.T, err, reason error) {
	t.Helper()
	var broken *BrokenError
	if !errors.As(err, &broken) || !errors.Is(err, reason) {
		t.Fatal(err, "in place of", reason)
	}
}

func TestCommit(t *testing.T) {
	session := dialStandIn(t, func(s *standIn) {
		s.answer("commit 1 0", "waiting 1 200", "commit 1 0", "waiting 1 200", "commit 1 0", "committed 1 200",
			"commit 2 7", "committed 2 300", "commit 3 0", "waiting 3 400", "commit 3 0", "committed 3 400")
	})
	stamp, isCommitted, err := session.Begin(always, 0)
	if isCommitted {
		t.Error("it waits")
	}
	wantStamp(t, 200, stamp, err)
	var pending *PendingError
	_, _, err = session.Begin(always, 0)
	if !errors.Is(err, CommitPending) || !errors.As(err, &pending) || *pending != (PendingError{1, 200}) {
		t.Error(err)
	}
	stamp, err = session.Wait(always)
	wantStamp(t, 200, stamp, err)
	stamp, isCommitted, err = session.Begin(always, 7)
	if !isCommitted {
		t.Error("it is committed")
	}
	wantStamp(t, 300, stamp, err)
	stamp, err = session.Wait(always) // sends nothing
	wantStamp(t, 300, stamp, err)
	stamp, err = session.Commit(always, 0)
	wantStamp(t, 400, stamp, err)
}

func TestLease(t *testing.T) {
	session := dialStandIn(t, func(s *standIn) {
		s.answer("lease 5 9", "leased 5 9", "commit 1 0", "refused 903", "lease 9 5", "refused 101", "lease 5 10", "leased 5 9")
	})
	if err := session.Lease(always, 5, 9); err != nil {
		t.Fatal(err)
	}
	if _, _, err := session.Begin(always, 0); !errors.Is(err, LeaseOver) {
		t.Fatal(err)
	}
	var refusal Refusal
	if err := session.Lease(always, 9, 5); !errors.As(err, &refusal) || refusal != 101 {
		t.Fatal(err)
	}
	wantBroken(t, session.Lease(always, 5, 10), ErrReply)
	if _, _, err := session.Begin(always, 0); !errors.Is(err, LeaseOver) { // nothing is sent
		t.Fatal(err)
	}
}

func TestWaitIsCancelled(t *testing.T) {
	for _, late := range []string{"waiting 1 200", "committed 1 200", "refused 803"} {
		heard, isOver := make(chan struct{}), make(chan struct{})
		session := dialStandIn(t, func(s *standIn) {
			s.answer("commit 1 0", "waiting 1 200")
			s.hear("commit 1 0")
			close(heard)
			<-isOver
			s.say(late)
			if late != "committed 1 200" {
				s.answer("commit 1 0", "committed 1 200")
			}
			s.answer("commit 2 0", "committed 2 300")
		})
		stamp, _, err := session.Begin(always, 0)
		wantStamp(t, 200, stamp, err)
		cancelled(t, heard, func(ctx context.Context) error {
			_, err := session.Wait(ctx)
			return err
		})
		close(isOver)
		stamp, err = session.Wait(always)
		wantStamp(t, 200, stamp, err)
		stamp, err = session.Commit(always, 0)
		wantStamp(t, 300, stamp, err)
	}
}

// TestWaitIsOver ends the context between two lines, and while a reply does not come.
func TestWaitIsOver(t *testing.T) {
	session := dialStandIn(t, func(s *standIn) {
		s.answer("commit 1 0", "waiting 1 200")
		for s.lines.Scan() && s.lines.Text() == "commit 1 0" {
			s.say("waiting 1 200")
		}
		s.say("now 5 15")
		s.answer("commit 1 0", "committed 1 200")
	})
	stamp, _, err := session.Begin(always, 0)
	wantStamp(t, 200, stamp, err)
	ctx, cancel := context.WithTimeout(always, 20*time.Millisecond)
	defer cancel()
	if _, err := session.Wait(ctx); !errors.Is(err, context.DeadlineExceeded) {
		t.Fatal(err)
	}
	if now, err := session.Now(always); now != (Interval{5, 15}) || err != nil {
		t.Fatal(now, err)
	}
	stamp, err = session.Wait(always)
	wantStamp(t, 200, stamp, err)
}

// TestNowIsCancelled has the late reply come before the next line, and not at all before the next context ends.
func TestNowIsCancelled(t *testing.T) {
	heard, isOver := make(chan struct{}), make(chan struct{})
	session := dialStandIn(t, func(s *standIn) {
		s.hear("now")
		close(heard)
		<-isOver
		io.WriteString(s.conn, "now 1")
		time.Sleep(time.Millisecond)
		s.say(" 2")
		s.answer("after 7", "no", "now", "now 5 15")
	})
	cancelled(t, heard, func(ctx context.Context) error {
		now, err := session.Now(ctx)
		if now != allTimes {
			t.Error(now)
		}
		return err
	})
	ctx, cancel := context.WithTimeout(always, 5*time.Millisecond)
	defer cancel()
	if _, err := session.Before(ctx, 1); !errors.Is(err, context.DeadlineExceeded) { // its line is never sent
		t.Fatal(err)
	}
	close(isOver)
	if is, err := session.After(always, 7); is || err != nil {
		t.Fatal(is, err)
	}
	if now, err := session.Now(always); now != (Interval{5, 15}) || err != nil {
		t.Fatal(now, err)
	}
}

// TestBeginIsCancelled gives a commit that comes later no timestamp that was given before it came.
func TestBeginIsCancelled(t *testing.T) {
	heard, isOver := make(chan struct{}), make(chan struct{})
	session := dialStandIn(t, func(s *standIn) {
		s.hear("commit 1 0")
		close(heard)
		<-isOver
		s.say("waiting 1 200")
		s.answer("commit 1 0", "waiting 1 200", "commit 1 0", "committed 1 200", "commit 2 0", "waiting 2 300", "commit 2 0", "committed 2 300")
	})
	cancelled(t, heard, func(ctx context.Context) error {
		_, _, err := session.Begin(ctx, 0)
		return err
	})
	close(isOver)
	if _, err := session.Wait(always); err != ErrNoCommit {
		t.Fatal(err)
	}
	stamp, err := session.Commit(always, 0)
	wantStamp(t, 300, stamp, err)
}

// TestBeginIsRefused has refusals after which the commit was not begun, and one after which it may have been.
func TestBeginIsRefused(t *testing.T) {
	session := dialStandIn(t, func(s *standIn) {
		s.answer("commit 1 9", "refused 902", "commit 1 8", "refused 803", "commit 2 0", "refused 1104", "commit 1 0", "committed 1 100",
			"commit 2 0", "refused 801", "commit 3 0", "waiting 3 300", "commit 3 0", "committed 3 300")
	})
	for _, begin := range []struct {
		floor int64
		want  error
	}{{9, FloorTooFar}, {8, ClockFailed}, {0, Nothing}} {
		if _, _, err := session.Begin(always, begin.floor); err != begin.want {
			t.Fatal(err)
		}
		if _, err := session.Wait(always); err != ErrNoCommit {
			t.Fatal(err)
		}
	}
	stamp, err := session.Commit(always, 0)
	wantStamp(t, 300, stamp, err)
}

func TestLateReplyIsNone(t *testing.T) {
	heard, isOver := make(chan struct{}), make(chan struct{})
	session := dialStandIn(t, func(s *standIn) {
		s.hear("after 5")
		close(heard)
		<-isOver
		s.say("now 5 15")
	})
	cancelled(t, heard, func(ctx context.Context) error {
		_, err := session.After(ctx, 5)
		return err
	})
	close(isOver)
	_, err := session.Now(always)
	wantBroken(t, err, ErrReply)
}

func TestNothingIsSent(t *testing.T) {
	session := dialStandIn(t, func(s *standIn) { s.answer("now", "now 5 15") })
	ctx, cancel := context.WithCancel(always)
	cancel()
	if _, err := session.Now(ctx); err != context.Canceled {
		t.Fatal(err)
	}
	for _, line := range []string{strings.Repeat("x", 65), "now\n", "\xb2"} {
		if _, err := session.Ask(always, line); err != ErrBadLine {
			t.Fatal(err)
		}
	}
	if _, err := session.Now(always); err != nil {
		t.Fatal(err)
	}
}

func TestTimeout(t *testing.T) {
	heard := make(chan struct{})
	session := dialStandIn(t, func(s *standIn) {
		s.hear("now")
		close(heard)
	})
	cancelled(t, heard, func(ctx context.Context) error {
		_, err := session.Now(ctx)
		return err
	})
	session.SetTimeout(time.Millisecond)
	_, err := session.Now(always) // the reply that is owed does not come in time
	wantBroken(t, err, os.ErrDeadlineExceeded)
	if _, err = session.Wait(always); err != ErrNoCommit {
		t.Fatal(err)
	}
}

// TestTimeoutOfAnOwedReply has a call wait for what is left of the time-out of the line before, which was cancelled.
func TestTimeoutOfAnOwedReply(t *testing.T) {
	session := dialStandIn(t, func(s *standIn) { s.hear("now") })
	session.SetTimeout(time.Second)
	ctx, cancel := context.WithTimeout(always, 800*time.Millisecond)
	defer cancel()
	if _, err := session.Now(ctx); err != context.DeadlineExceeded {
		t.Fatal(err)
	}
	began := time.Now()
	_, err := session.Now(always)
	wantBroken(t, err, os.ErrDeadlineExceeded)
	if took := time.Since(began); took > 600*time.Millisecond {
		t.Fatalf("it waited for %v, and 200 ms were left", took)
	}
}

// TestConnectsAnew has the connection fail while a reply is owed. Nothing of the first connection comes on the second one.
func TestConnectsAnew(t *testing.T) {
	listener, err := net.Listen("tcp", "127.0.0.1:0")
	if err != nil {
		t.Fatal(err)
	}
	defer listener.Close()
	heard, isOver, played := make(chan struct{}), make(chan struct{}), make(chan struct{})
	go func() {
		defer close(played)
		for turn := 0; turn < 2; turn++ {
			conn, err := listener.Accept()
			if err != nil {
				t.Error(err)
				return
			}
			conn.SetDeadline(time.Now().Add(30 * time.Second))
			s := &standIn{t, conn, bufio.NewScanner(conn)}
			if turn == 0 {
				s.answer("commit 1 0", "waiting 1 200")
				s.hear("commit 1 0")
				close(heard)
				<-isOver
			} else {
				s.answer("now", "now 5 15", "commit 1 9", "committed 1 300")
			}
			conn.Close()
		}
	}()
	session, err := Dial(always, "tcp", listener.Addr().String())
	if err != nil {
		t.Fatal(err)
	}
	stamp, _, err := session.Begin(always, 0)
	wantStamp(t, 200, stamp, err)
	cancelled(t, heard, func(ctx context.Context) error {
		_, err := session.Wait(ctx)
		return err
	})
	close(isOver)
	_, err = session.Wait(always)
	wantBroken(t, err, io.ErrUnexpectedEOF)
	if now, err := session.Now(always); now != (Interval{5, 15}) || err != nil {
		t.Fatal(now, err)
	}
	if _, err := session.Wait(always); err != ErrNoCommit {
		t.Fatal(err)
	}
	stamp, err = session.Commit(always, 9)
	wantStamp(t, 300, stamp, err)
	session.Close()
	<-played
	_, err = session.Now(always)
	wantBroken(t, err, net.ErrClosed)
}

// TestNobodyListens has a context that has ended, and nobody to connect to anew.
func TestNobodyListens(t *testing.T) {
	listener, err := net.Listen("tcp", "127.0.0.1:0")
	if err != nil {
		t.Fatal(err)
	}
	session, err := Dial(always, "tcp", listener.Addr().String())
	if err != nil {
		t.Fatal(err)
	}
	defer session.Close()
	conn, err := listener.Accept()
	if err != nil {
		t.Fatal(err)
	}
	listener.Close()
	conn.Close()
	for len(session.link.Load().replies) == 0 {
		time.Sleep(time.Millisecond)
	}
	_, err = session.Now(always)
	wantBroken(t, err, syscall.ECONNREFUSED)
	ctx, cancel := context.WithCancel(always)
	cancel()
	if _, err := session.Now(ctx); err != context.Canceled {
		t.Fatal(err)
	}
}

func TestServiceEnds(t *testing.T) {
	ended := make(chan struct{})
	session := dialStandIn(t, func(s *standIn) {
		s.conn.Close()
		close(ended)
	})
	<-ended
	_, err := session.Now(always)
	var broken *BrokenError
	if !errors.As(err, &broken) {
		t.Fatal(err)
	}
}

// TestUnasked has something come that nobody asked for: no later line gets it as its reply.
func TestUnasked(t *testing.T) {
	received := make(chan struct{})
	session := dialStandIn(t, func(s *standIn) {
		s.answer("now", "now 5 15", "lease 5 9", "leased 5 9")
		<-received
		s.say("now 7 9")
	})
	if now, err := session.Now(always); now != (Interval{5, 15}) || err != nil {
		t.Fatal(now, err)
	}
	if err := session.Lease(always, 5, 9); err != nil {
		t.Fatal(err)
	}
	close(received)
	for len(session.link.Load().replies) == 0 {
		time.Sleep(time.Millisecond)
	}
	now, err := session.Now(always)
	wantBroken(t, err, ErrReply)
	if !strings.HasSuffix(err.Error(), "; the lease has to be set again") || now != allTimes {
		t.Fatal(now, err)
	}
}

// TestClose closes a session while one call waits for its reply and another for its turn.
func TestClose(t *testing.T) {
	heard, failed := make(chan struct{}), make(chan error)
	session := dialStandIn(t, func(s *standIn) {
		s.hear("now")
		close(heard)
	})
	for caller := 0; caller < 2; caller++ {
		go func() {
			_, err := session.Now(always)
			failed <- err
		}()
	}
	<-heard
	session.Close()
	for caller := 0; caller < 2; caller++ {
		wantBroken(t, <-failed, net.ErrClosed)
	}
	if err := session.Close(); err != nil {
		t.Fatal(err)
	}
}

func TestTurn(t *testing.T) {
	heard, isOver := make(chan struct{}), make(chan struct{})
	session := dialStandIn(t, func(s *standIn) {
		s.hear("after 1")
		close(heard)
		<-isOver
		s.say("yes")
	})
	first := make(chan error)
	go func() {
		is, err := session.After(always, 1)
		if !is {
			t.Error(err)
		}
		first <- err
	}()
	<-heard
	ctx, cancel := context.WithTimeout(always, time.Millisecond)
	defer cancel()
	if _, err := session.Now(ctx); !errors.Is(err, context.DeadlineExceeded) { // it was not its turn
		t.Fatal(err)
	}
	close(isOver)
	if err := <-first; err != nil {
		t.Fatal(err)
	}
}

func TestDial(t *testing.T) {
	if _, err := Dial(always, "udp", "127.0.0.1:1"); err == nil {
		t.Error("no session over udp")
	}
	var broken *BrokenError
	var failed *net.OpError
	_, err := Dial(always, "unix", t.TempDir()+"/nobody")
	if !errors.As(err, &broken) || !errors.As(err, &failed) || !errors.Is(err, fs.ErrNotExist) {
		t.Error(err)
	}
	pool := NewPool(1, func(ctx context.Context) (*Session, error) { return Dial(ctx, "unix", t.TempDir()+"/nobody") })
	if _, err := pool.Commit(always, 0); !errors.As(err, &broken) || broken.Commit != 0 || broken.LostLease {
		t.Error(err)
	}
	ctx, cancel := context.WithCancel(always)
	cancel()
	if _, err := Dial(ctx, "tcp", "127.0.0.1:1"); err != context.Canceled {
		t.Error(err)
	}
}

func TestLongTimeouts(t *testing.T) {
	for _, timeout := range []time.Duration{math.MaxInt64, -1, 0} {
		session := dialStandIn(t, func(s *standIn) { s.answer("after 1", "yes") })
		session.SetTimeout(timeout)
		if is, err := session.After(always, 1); !is || err != nil {
			t.Error(timeout, is, err)
		}
	}
}

func TestErrors(t *testing.T) {
	err := fmt.Errorf("no commit: %w", FloorTooFar)
	var refusal Refusal
	if !errors.As(err, &refusal) || uint16(refusal) != 902 || !errors.Is(err, FloorTooFar) || errors.Is(err, LeaseOver) {
		t.Error(refusal)
	}
	for refusal, text := range map[Refusal]string{
		1704: "truetime: refused 1704: another publication came during each of the tries",
		7777: "truetime: refused 7777: see docs/reference/refusals.md",
	} {
		if refusal.Error() != text {
			t.Error(refusal)
		}
	}
}
