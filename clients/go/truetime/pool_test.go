package truetime

import (
	"context"
	"errors"
	"io"
	"net"
	"strings"
	"sync"
	"testing"
	"time"
)

// releasing serves sessions that release each commit at its second line, refuse each before, and end at a now; its address.
func releasing(t *testing.T) string {
	t.Helper()
	listener, err := net.Listen("tcp", "127.0.0.1:0")
	if err != nil {
		t.Fatal(err)
	}
	t.Cleanup(func() { listener.Close() })
	go func() {
		for {
			conn, err := listener.Accept()
			if err != nil {
				return
			}
			go func() {
				defer conn.Close()
				s, word := &standIn{t, conn, nil}, "committed"
				buffer := make([]byte, 100)
				for {
					n, err := conn.Read(buffer)
					if err != nil || strings.HasPrefix(string(buffer[:n]), "now") {
						return
					}
					if strings.HasPrefix(string(buffer[:n]), "before") {
						s.say("refused 801")
						continue
					}
					word = map[string]string{"waiting": "committed", "committed": "waiting"}[word]
					s.say(word + " " + strings.Fields(string(buffer[:n]))[1] + " 200")
				}
			}()
		}
	}()
	return listener.Addr().String()
}

// told keeps what a Logger is told.
type told struct {
	mutex sync.Mutex
	texts []string
}

func (l *told) Info(text string, args ...any) { l.add("info " + text) }
func (l *told) Warn(text string, args ...any) { l.add("warn " + text) }
func (l *told) add(text string) {
	l.mutex.Lock()
	defer l.mutex.Unlock()
	l.texts = append(l.texts, text)
}

func TestPoolEndsWaitingWithContext(t *testing.T) {
	address, dialled := releasing(t), 0
	pool := NewPool(1, func(ctx context.Context) (*Session, error) {
		dialled++
		return Dial(ctx, "tcp", address)
	})
	defer pool.Close()
	session, err := pool.Get(always)
	if err != nil {
		t.Fatal(err)
	}
	ctx, cancel := context.WithTimeout(always, 20*time.Millisecond)
	defer cancel()
	if _, err := pool.Commit(ctx, 0); !errors.Is(err, context.DeadlineExceeded) {
		t.Error(err)
	}
	pool.Put(session)
	if _, err := pool.Commit(ctx, 0); !errors.Is(err, context.DeadlineExceeded) {
		t.Error(err)
	}
	for turn := 0; turn < 3; turn++ {
		if stamp, err := pool.Commit(always, 0); stamp != 200 || err != nil {
			t.Error(stamp, err)
		}
	}
	if dialled != 1 {
		t.Error(dialled)
	}
	pool.Close()
	if _, err := pool.Get(always); err != ErrPoolClosed {
		t.Error(err)
	}
}

// TestPoolClosesWhatOwesAReply has a call cancelled whose reply is still to come: nobody else gets its session.
func TestPoolClosesWhatOwesAReply(t *testing.T) {
	heard, dialled := make(chan struct{}), 0
	pool := NewPool(1, func(context.Context) (*Session, error) {
		if dialled++; dialled == 1 {
			return dialStandIn(t, func(s *standIn) {
				s.hear("now")
				close(heard)
			}), nil
		}
		return dialStandIn(t, func(s *standIn) { s.answer("commit 1 0", "committed 1 200") }), nil
	})
	session, err := pool.Get(always)
	if err != nil {
		t.Fatal(err)
	}
	cancelled(t, heard, func(ctx context.Context) error {
		_, err := session.Now(ctx)
		return err
	})
	pool.Put(session)
	stamp, err := pool.Commit(always, 0)
	wantStamp(t, 200, stamp, err)
	if dialled != 2 {
		t.Error(dialled)
	}
}

func TestPoolWhoseDialFails(t *testing.T) {
	pool := NewPool(1, func(context.Context) (*Session, error) { return nil, io.ErrNoProgress })
	for turn := 0; turn < 3; turn++ {
		if _, err := pool.Commit(always, 0); err != io.ErrNoProgress {
			t.Error(err)
		}
	}
}

// panics says whether a call does.
func panics(call func()) (did bool) {
	defer func() { did = recover() != nil }()
	call()
	return false
}

func TestMisusedPools(t *testing.T) {
	if !panics(func() { NewPool(0, nil) }) {
		t.Error("it has no session")
	}
	address := releasing(t)
	pool := NewPool(2, func(ctx context.Context) (*Session, error) { return Dial(ctx, "tcp", address) })
	defer pool.Close()
	session, err := pool.Get(always)
	if err != nil {
		t.Fatal(err)
	}
	pool.Put(session)
	if !panics(func() { pool.Put(session) }) {
		t.Error("it came back twice")
	}
}

func TestLogger(t *testing.T) {
	session, err := Dial(always, "tcp", releasing(t))
	if err != nil {
		t.Fatal(err)
	}
	defer session.Close()
	session.Now(always) // without a logger
	logger := &told{}
	session.SetLogger(logger)
	session.Commit(always, 0)
	session.Before(always, 1)
	session.Now(always)
	session.Commit(always, 0)
	session.SetLogger(nil)
	session.Now(always)
	wanted := []string{"info truetime: connected anew", "info truetime: refused", "warn truetime: the connection failed",
		"info truetime: connected anew"}
	if strings.Join(logger.texts, "\n") != strings.Join(wanted, "\n") {
		t.Error(logger.texts)
	}
}

func TestLoggerOfLongWaits(t *testing.T) {
	const after = LongWait + LongWait/2
	session := dialStandIn(t, func(s *standIn) {
		s.answer("commit 1 0", "waiting 1 200")
		for began := time.Now(); time.Since(began) < after; {
			s.answer("commit 1 0", "waiting 1 200")
		}
		s.answer("commit 1 0", "committed 1 200")
	})
	logger := &told{}
	session.SetLogger(logger)
	if _, err := session.Commit(always, 0); err != nil {
		t.Error(err)
	}
	if len(logger.texts) != 1 || logger.texts[0] != "warn truetime: a commit waits for long" {
		t.Error(logger.texts)
	}
}

func TestNegativeTimes(t *testing.T) {
	session := dialStandIn(t, func(s *standIn) { s.answer("after 0", "no") })
	calls := map[string]func() error{
		"after":  func() error { _, err := session.After(always, -1); return err },
		"before": func() error { _, err := session.Before(always, -1); return err },
		"begin":  func() error { _, _, err := session.Begin(always, -1); return err },
		"commit": func() error { _, err := session.Commit(always, -1); return err },
		"lo":     func() error { return session.Lease(always, -1, 5) },
		"hi":     func() error { return session.Lease(always, 0, -1) },
	}
	for name, call := range calls {
		if err := call(); err != ErrNegative {
			t.Error(name, err)
		}
	}
	if is, err := session.After(always, 0); is || err != nil {
		t.Error(is, err)
	}
}
