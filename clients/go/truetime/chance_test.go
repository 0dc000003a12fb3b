package truetime

import (
	"bufio"
	"context"
	"errors"
	"fmt"
	"math/rand"
	"net"
	"strings"
	"sync"
	"testing"
	"time"
)

// A model is a service by docs/FORMATS.md, section 8, for one session. Its time is that since it began, in microseconds, plus or
// minus half of its width. Its replies are late by chance, and now and then it refuses before or after it has begun a commit.
type model struct {
	began       time.Time
	chance      *rand.Rand
	last, stamp int64
	isReleased  bool
	greatest    int64 // of all timestamps
}

const width = 600

func (m *model) now() int64 { return width + int64(time.Since(m.began).Microseconds()) }

func (m *model) reply(line string) string {
	var a, b int64
	word, _, _ := strings.Cut(line, " ")
	fmt.Sscanf(line, word+" %d %d", &a, &b)
	now := m.now()
	switch {
	case word == "now":
		return fmt.Sprintf("now %d %d", now-width/2, now+width/2)
	case word == "after":
		return map[bool]string{true: "yes", false: "no"}[a < now-width/2]
	case word == "lease":
		return "leased" + line[len(word):]
	case word != "commit":
		return line
	case a < m.last:
		return "refused 1103"
	case a > m.last && m.last > 0 && !m.isReleased:
		return "refused 1104"
	case a > m.last && m.chance.Intn(8) == 0:
		return [...]string{"refused 801", "refused 902"}[m.chance.Intn(2)]
	case a > m.last:
		m.last, m.stamp, m.isReleased = a, greatest(now+width/2, b, m.greatest+1), false
		m.greatest = m.stamp
	}
	if !m.isReleased && m.chance.Intn(16) == 0 {
		return "refused 803"
	}
	m.isReleased = m.isReleased || m.stamp < now-width/2
	return fmt.Sprintf("%s %d %d", map[bool]string{true: "committed", false: "waiting"}[m.isReleased], a, m.stamp)
}

func greatest(numbers ...int64) (most int64) {
	for _, number := range numbers {
		if number > most {
			most = number
		}
	}
	return most
}

func (m *model) serve(listener net.Listener) {
	conn, err := listener.Accept()
	if err != nil {
		return
	}
	defer conn.Close()
	for lines := bufio.NewScanner(conn); lines.Scan(); {
		reply := m.reply(lines.Text())
		if m.chance.Intn(2) == 0 {
			time.Sleep(time.Duration(m.chance.Intn(500)) * time.Microsecond)
		}
		fmt.Fprintln(conn, reply)
	}
}

// TestChance has calls of several goroutines cancelled by chance. Each answer has to be that to its own line, none older than the
// call, and no timestamp may be older than the call of Begin, nor be released early.
func TestChance(t *testing.T) {
	listener, err := net.Listen("tcp", "127.0.0.1:0")
	if err != nil {
		t.Fatal(err)
	}
	defer listener.Close()
	service := &model{began: time.Now(), chance: rand.New(rand.NewSource(1))}
	go service.serve(listener)
	session, err := Dial(always, "tcp", listener.Addr().String())
	if err != nil {
		t.Fatal(err)
	}
	defer session.Close()
	var callers sync.WaitGroup
	for seed := int64(2); seed < 5; seed++ {
		callers.Add(1)
		go func(seed int64) {
			defer callers.Done()
			caller := chanceCaller{t: t, service: service, session: session, chance: rand.New(rand.NewSource(seed))}
			for turn := 0; turn < 200 && !t.Failed(); turn++ {
				if seed == 2 {
					caller.commit()
				} else {
					caller.look(turn)
				}
			}
			t.Logf("%d calls, %d cancelled, %d refused", caller.calls, caller.cancelled, caller.refused)
		}(seed)
	}
	callers.Wait()
}

type chanceCaller struct {
	t                         *testing.T
	service                   *model
	session                   *Session
	chance                    *rand.Rand
	calls, cancelled, refused int
}

// context gives one that ends soon, or not.
func (c *chanceCaller) context() (context.Context, context.CancelFunc) {
	if c.chance.Intn(3) == 0 {
		return context.WithCancel(always)
	}
	return context.WithTimeout(always, time.Duration(c.chance.Intn(2000))*time.Microsecond)
}

// is says whether a call was made, and not cancelled or refused.
func (c *chanceCaller) is(err error) bool {
	c.calls++
	switch {
	case errors.Is(err, context.DeadlineExceeded):
		c.cancelled++
	case isRefusal(err):
		c.refused++
	case err != nil:
		c.t.Error(err)
	}
	return err == nil
}

func (c *chanceCaller) look(turn int) {
	ctx, cancel := c.context()
	defer cancel()
	before := c.service.now()
	switch turn % 4 {
	case 0:
		now, err := c.session.Now(ctx)
		if after := c.service.now(); c.is(err) && (now.Earliest+width/2 < before || now.Latest-width/2 > after) {
			c.t.Error(now, "between", before, after)
		}
	case 1:
		want := c.chance.Intn(2) == 0
		is, err := c.session.After(ctx, map[bool]int64{true: 0, false: MaxTime}[want])
		if c.is(err) && is != want {
			c.t.Error(is)
		}
	case 2:
		line := fmt.Sprint("line ", c.chance.Int63())
		reply, err := c.session.Ask(ctx, line)
		if c.is(err) && reply != line {
			c.t.Error(reply, "to", line)
		}
	case 3:
		c.is(c.session.Lease(ctx, int64(turn), MaxTime))
	}
}

func (c *chanceCaller) commit() {
	ctx, cancel := c.context()
	defer cancel()
	before := c.service.now()
	begun, _, err := c.session.Begin(ctx, 0)
	if !c.is(err) {
		if err == CommitPending {
			c.t.Error("no commit is pending that a caller knows")
		}
		return
	}
	if begun < before+width/2 {
		c.t.Error("the timestamp", begun, "of a commit that came at", before)
	}
	for {
		ctx, cancel := c.context()
		stamp, err := c.session.Wait(ctx)
		cancel()
		if !c.is(err) {
			if c.t.Failed() {
				return
			}
			continue
		}
		if stamp != begun || c.service.now() <= stamp {
			c.t.Error("the timestamp", stamp, "in place of", begun, "at", c.service.now())
		}
		return
	}
}
