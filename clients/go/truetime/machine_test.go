package truetime

import (
	"context"
	"errors"
	"os"
	"strconv"
	"testing"
	"time"
)

// These ask a running machine whose masters have the time of this host: TRUETIME_ADDRESS and TRUETIME_SOCKET name where it
// is asked, and TRUETIME_FILE the file that it shares. tools/check starts one.

func dialMachine(t testing.TB) map[string]*Session {
	t.Helper()
	sessions := map[string]*Session{}
	for network, variable := range map[string]string{"tcp": "TRUETIME_ADDRESS", "unix": "TRUETIME_SOCKET"} {
		address := os.Getenv(variable)
		if address == "" {
			t.Skip(variable, "names no machine")
		}
		session, err := Dial(always, network, address)
		if err != nil {
			t.Fatal(err)
		}
		t.Cleanup(func() { session.Close() })
		sessions[network] = session
	}
	return sessions
}

func hostTime() int64 { return int64(time.Now().UnixNano()) }

// beside checks what a call gives against the time of this host before and after it.
func beside(t *testing.T, what string, call func() (Interval, error)) {
	t.Helper()
	before := hostTime()
	now, err := call()
	if after := hostTime(); err != nil || now.Latest < before || now.Earliest > after || now.Earliest == 0 {
		t.Error(what, now, err, "between", before, after)
	}
}

func TestMachineReads(t *testing.T) {
	for network, session := range dialMachine(t) {
		beside(t, network, func() (Interval, error) { return session.Now(always) })
		for what, ask := range map[string]func(t int64) (bool, error){
			"after":  func(t int64) (bool, error) { return session.After(always, t) },
			"before": func(t int64) (bool, error) { return session.Before(always, t) },
		} {
			past, err := ask(hostTime() - 10_000_000_000)
			coming, also := ask(hostTime() + 10_000_000_000)
			if err != nil || also != nil || past != (what == "after") || coming != (what == "before") {
				t.Error(network, what, past, err, coming, also)
			}
		}
	}
	for _, open := range []func(string, string) (*Client, error){Open, OpenUnmapped} {
		client, err := open(os.Getenv("TRUETIME_FILE"), strconv.Itoa(os.Geteuid()))
		if err == ErrUnsupported {
			continue
		}
		if err != nil {
			t.Fatal(err)
		}
		defer client.Close()
		beside(t, "file", func() (Interval, error) {
			now, err := client.Now()
			if now.Epoch == 0 || now.Number == 0 {
				t.Error(now)
			}
			return now.Interval, err
		})
	}
}

// commitBeside makes a commit, whose timestamp lies between two looks at the time of this host.
func commitBeside(t *testing.T, session *Session, floor int64) int64 {
	t.Helper()
	before := hostTime()
	begun, _, err := session.Begin(always, floor)
	if err != nil || begun < before || begun < floor {
		t.Fatal(begun, err, "after", before, floor)
	}
	stamp, err := session.Wait(always)
	if after := hostTime(); err != nil || stamp != begun || stamp >= after {
		t.Fatal(stamp, err, "before", after)
	}
	return stamp
}

func TestMachineCommits(t *testing.T) {
	last := int64(0)
	sessions := dialMachine(t)
	for turn := 0; turn < 20; turn++ {
		for network, session := range sessions {
			stamp := commitBeside(t, session, 0)
			if stamp <= last {
				t.Error(network, stamp, last)
			}
			last = stamp
		}
	}
	for _, session := range sessions {
		commitBeside(t, session, hostTime()+30_000_000)
		if _, _, err := session.Begin(always, hostTime()+60_000_000_000); err != FloorTooFar && err != FloorAboveCap {
			t.Error(err)
		}
		commitBeside(t, session, 0)
	}
}

func TestMachineLeases(t *testing.T) {
	for _, session := range dialMachine(t) {
		lo := hostTime() + 50_000_000
		if err := session.Lease(always, lo, MaxTime); err != nil {
			t.Fatal(err)
		}
		if stamp := commitBeside(t, session, 0); stamp < lo {
			t.Error(stamp, lo)
		}
		if err := session.Lease(always, 0, lo); err != nil {
			t.Fatal(err)
		}
		if _, err := session.Commit(always, 0); err != LeaseOver {
			t.Error(err)
		}
		if err := session.Lease(always, lo+60_000_000_000, MaxTime); err != nil {
			t.Fatal(err)
		}
		if _, _, err := session.Begin(always, 0); err != FloorAboveCap {
			t.Error(err)
		}
		var refusal Refusal
		if err := session.Lease(always, 9, 5); !errors.As(err, &refusal) || refusal != 101 {
			t.Error(err)
		}
		if err := session.Lease(always, 0, MaxTime); err != nil {
			t.Fatal(err)
		}
		commitBeside(t, session, 0)
	}
}

// TestMachineIsLeft has contexts end before the replies come, whether the machine answers a commit's first line at once or after
// its release.
func TestMachineIsLeft(t *testing.T) {
	for network, session := range dialMachine(t) {
		floor := hostTime() + 400_000_000
		ctx, cancel := context.WithTimeout(always, 10*time.Millisecond)
		_, err := session.Commit(ctx, floor)
		cancel()
		if !errors.Is(err, context.DeadlineExceeded) {
			t.Fatal(network, err)
		}
		beside(t, network, func() (Interval, error) { return session.Now(always) }) // it waits for the reply that is owed
		if _, err := session.Wait(always); err == nil {                             // the machine had answered that the commit waits
			t.Log(network, "has begun at once")
		} else if err != ErrNoCommit {
			t.Error(network, err)
		}
		if stamp := commitBeside(t, session, 0); stamp <= floor {
			t.Error(network, stamp, "is no greater than that of the commit that was left", floor)
		}
		if reply, err := session.Ask(always, "commit 1 0"); err != nil || reply != "refused 1103" {
			t.Error(reply, err)
		}
	}
}

func BenchmarkMachine(b *testing.B) {
	for network, session := range dialMachine(b) {
		b.Run(network, func(b *testing.B) {
			ctx, cancel := context.WithCancel(always)
			defer cancel()
			b.ReportAllocs()
			for turn := 0; turn < b.N; turn++ {
				if _, err := session.Now(ctx); err != nil {
					b.Fatal(err)
				}
			}
		})
	}
}
