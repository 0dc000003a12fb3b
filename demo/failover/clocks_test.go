package main

import (
	"bufio"
	"context"
	"encoding/binary"
	"errors"
	"fmt"
	"net"
	"os"
	"path/filepath"
	"strings"
	"sync"
	"testing"
	"time"

	"example.org/truetime/clients/go/truetime"
)

// sharedFile writes a file as a machine shares it: a time that has passed long ago as seen from 3000000000000000000, and the last
// clock reading at which it is fresh.
func sharedFile(t *testing.T, validUntil uint64) string {
	t.Helper()
	boot, err := os.ReadFile("/proc/sys/kernel/random/boot_id")
	if err != nil {
		t.Skip(err)
	}
	bytes := make([]byte, 320)
	copy(bytes, "TTS3\x40\x01\x00\x00\x04") // by CLOCK_MONOTONIC_RAW, so Go reads the second base
	copy(bytes[24:60], boot)
	put := func(at int, number uint64) { binary.LittleEndian.PutUint64(bytes[at:], number) }
	put(16, 1) // the index: one publication, which stands in slot 1
	for place, number := range []uint64{1, 0, 1, 2, 0, 1, 1, 0, 3, 0, 1_000_000, 2_000_000, 0, validUntil, ^uint64(0), 0} {
		put(192+8*place, number)
	}
	path := filepath.Join(t.TempDir(), "time")
	if err := os.WriteFile(path, bytes, 0o600); err != nil {
		t.Fatal(err)
	}
	return path
}

func TestAPartOfTheSpanIsUsedUpBeforeTheNext(t *testing.T) {
	ctx := context.Background()
	clock, err := openStampers(sharedFile(t, truetime.MaxTime))
	if err != nil {
		t.Skip("the shared file cannot be read here:", err)
	}
	defer clock.close()
	const lo = 3_000_000_000_000_000_000
	if _, _, err := clock.begin(ctx); err != truetime.LeaseOver {
		t.Error("without a span:", err)
	}
	var given []int64
	for _, hi := range []int64{lo + 1, lo + 4} {
		if err := clock.grant(truetime.Lease{Lo: lo, Hi: hi}); err != nil {
			t.Fatal(err)
		}
		for range [2]int{} {
			stamp, _, err := clock.begin(ctx)
			if err != nil {
				t.Fatal(err)
			}
			given = append(given, stamp-lo)
		}
	}
	if last, _, err := clock.begin(ctx); fmt.Sprint(given, last-lo, err) != "[0 1 2 3] 4 <nil>" {
		t.Error(given, last, err)
	}
	if stamp, _, err := clock.begin(ctx); err != truetime.LeaseOver {
		t.Error("above the span:", stamp, err)
	}
}

func TestAMachineThatIsLateIsNoClock(t *testing.T) {
	if clock, err := openStampers(sharedFile(t, 0)); err == nil {
		t.Error("it was opened")
		clock.close()
	}
}

// A machine stands in for the service: it gives each session the stamps of its lease in order.
type machine struct {
	net.Listener
	mutex sync.Mutex
	conns []net.Conn
	lines []string // all but `now`
}

func newMachine(t *testing.T) *machine {
	listener, err := net.Listen("tcp", "127.0.0.1:0")
	if err != nil {
		t.Fatal(err)
	}
	t.Cleanup(func() { listener.Close() })
	m := &machine{Listener: listener}
	go func() {
		for {
			conn, err := listener.Accept()
			if err != nil {
				return
			}
			m.mutex.Lock()
			m.conns = append(m.conns, conn)
			m.mutex.Unlock()
			go m.serve(conn)
		}
	}()
	return m
}

func (m *machine) serve(conn net.Conn) {
	defer conn.Close()
	lines := bufio.NewScanner(conn)
	for lo, begun := int64(0), int64(0); lines.Scan(); {
		words := strings.Fields(lines.Text())
		if words[0] == "now" {
			fmt.Fprintln(conn, "now 10 20")
			continue
		}
		m.mutex.Lock()
		m.lines = append(m.lines, lines.Text())
		m.mutex.Unlock()
		var number int64
		fmt.Sscan(words[1], &number)
		switch {
		case words[0] == "lease":
			lo = number
			fmt.Fprintln(conn, "leased", words[1], words[2])
		case number > begun:
			begun = number
			fmt.Fprintln(conn, "waiting", number, lo+number)
		default:
			fmt.Fprintln(conn, "committed", number, lo+number)
		}
	}
}

func TestASessionIsToldOfTheSpanBeforeACommitThatNeedsIt(t *testing.T) {
	ctx, m := context.Background(), newMachine(t)
	clock, err := openSessions(ctx, m.Addr().String(), 1, 5*time.Second)
	if err != nil {
		t.Fatal(err)
	}
	defer clock.close()
	for turn, span := range []truetime.Lease{{Lo: 100, Hi: 200}, {Lo: 100, Hi: 300}, {Lo: 100, Hi: 300}} {
		if err := clock.grant(span); err != nil {
			t.Fatal(err)
		}
		stamp, wait, err := clock.begin(ctx)
		if err != nil || stamp != int64(101+turn) {
			t.Fatal(stamp, err)
		}
		if err := wait(ctx); err != nil {
			t.Error(err)
		}
	}
	said := strings.Join(m.lines[2:], ", ") // behind the leases of both sessions, the whole of time
	if said != "lease 100 200, commit 1 0, commit 1 0, lease 100 300, commit 2 0, commit 2 0, commit 3 0, commit 3 0" {
		t.Error(said)
	}
	if latest, err := clock.latest(ctx); latest != 20 || err != nil {
		t.Error(latest, err)
	}
	clock.close()
	var broken *truetime.BrokenError
	if _, err := clock.latest(ctx); !errors.As(err, &broken) {
		t.Error(err)
	}
	m.Close()
	if clock, err := openSessions(ctx, m.Addr().String(), 1, time.Second); err == nil {
		t.Error("a machine that is gone was opened")
		clock.close()
	}
}

// All stamps of a term are of one life of the machine, so no session may come back by itself.
func TestASessionThatFailsDoesNotComeBack(t *testing.T) {
	ctx, m := context.Background(), newMachine(t)
	clock, err := openSessions(ctx, m.Addr().String(), 1, 5*time.Second)
	if err != nil {
		t.Fatal(err)
	}
	defer clock.close()
	m.mutex.Lock()
	for _, conn := range m.conns {
		conn.Close()
	}
	m.mutex.Unlock()
	for range [3]int{} { // the machine listens still
		var broken *truetime.BrokenError
		if _, _, err := clock.begin(ctx); !errors.As(err, &broken) {
			t.Error(err)
		}
	}
	if _, err := clock.latest(ctx); err == nil || len(m.conns) != 2 {
		t.Error(err, len(m.conns))
	}
}
