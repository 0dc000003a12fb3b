// Command probe says what reader, stamper and sessions answer, for the tests: as ../../../c/test/probe.c.
package main

import (
	"bufio"
	"context"
	"errors"
	"fmt"
	"math"
	"os"
	"runtime"
	"strconv"
	"strings"
	"sync"
	"time"

	"example.org/truetime/clients/go/truetime"
)

func main() {
	words := os.Args[1:]
	lines := bufio.NewScanner(os.Stdin)
	switch {
	case len(words) == 1 && words[0] == "vectors":
		tryVectors(lines)
	case len(words) == 2 && words[0] == "open":
		client, err := truetime.Open(words[1], strconv.Itoa(os.Geteuid()))
		fmt.Println(published(client, err))
	case len(words) == 1 && words[0] == "files":
		tryFiles(lines)
	case len(words) == 1 && words[0] == "session":
		trySessions(lines)
	case len(words) == 1 && words[0] == "stamper":
		tryStampers(lines)
	case len(words) == 1 && words[0] == "pending":
		tryTables(lines)
	case len(words) == 1 && words[0] == "pool":
		tryPools(lines)
	case len(words) == 1 && words[0] == "openings":
		tryOpenings(lines)
	case len(words) == 1 && words[0] == "renewals":
		tryRenewals(lines)
	default:
		fmt.Fprintln(os.Stderr, "usage: probe vectors | probe open PATH | probe files | probe session | probe stamper | probe pending | probe pool | probe openings | probe renewals")
		os.Exit(2)
	}
}

func tryVectors(lines *bufio.Scanner) {
	out := bufio.NewWriter(os.Stdout)
	defer out.Flush()
	for lines.Scan() {
		n := numbers(lines.Text())
		publication := truetime.Publication{
			Clock: n[0], Lo: n[1], Hi: n[2], Drift: n[3], UsableUntil: n[4], ValidUntil: n[6], Epoch: n[7], Number: n[8]}
		reading, err := publication.At(n[5])
		fresh, yes := map[bool]string{true: "fresh", false: "stale"}, map[bool]string{true: "yes", false: "no"}
		fmt.Fprintln(out, said(fmt.Sprintln(reading.Earliest, reading.Latest, reading.Epoch, reading.Number, fresh[reading.Fresh],
			yes[reading.After(signed(n[9]))], yes[reading.Before(signed(n[9]))]), err))
	}
}

// published says what a reader reads, where it was opened.
func published(client *truetime.Client, err error) string {
	var p truetime.Publication
	if err == nil {
		p, err = client.Read()
	}
	return said(fmt.Sprintln("published", p.Clock, p.Lo, p.Hi, p.ValidUntil, p.UsableUntil, p.Epoch, p.Number, p.Drift), err)
}

func tryFiles(lines *bufio.Scanner) {
	var client *truetime.Client
	var err error = truetime.NoFile
	for lines.Scan() {
		name, path, _ := strings.Cut(lines.Text(), " ")
		if name == "at" {
			fmt.Println(readAt(client, numbers(path)[0]))
			continue
		}
		if open := map[string]func(string, string) (*truetime.Client, error){"open": truetime.OpenUnmapped, "map": truetime.Open}[name]; open != nil {
			if client != nil {
				client.Close()
			}
			client, err = open(path, strconv.Itoa(os.Geteuid()))
		}
		fmt.Println(published(client, err))
	}
}

// readAt says the reading of a file where CLOCK_MONOTONIC, whose number is 1, shows this.
func readAt(client *truetime.Client, clock uint64) string {
	p, err := client.Read()
	var now truetime.Reading
	if err == nil {
		now, err = p.At(clock)
	}
	fresh := map[bool]string{true: "fresh", false: "stale"}[now.Fresh]
	return said(fmt.Sprintln(1, now.Earliest, now.Latest, now.Epoch, now.Number, fresh), err)
}

func trySessions(lines *bufio.Scanner) {
	var session *truetime.Session
	var timeout time.Duration
	var last error
	for lines.Scan() {
		name, rest, _ := strings.Cut(lines.Text(), " ")
		text, err := "", error(nil)
		switch name {
		case "open":
			words := strings.Split(rest, " ")
			timeout = time.Duration(number(words[2])) * time.Millisecond
			session, err = dial(words[0], words[1], timeout)
			if err == nil && len(words) == 4 {
				session.SetMaxWidth(time.Duration(number(words[3])))
			}
			text = "open"
		case "close":
			session.Close()
			text = "closed"
		case "told":
			text = fmt.Sprint(last)
		default:
			text, err = call(session, name, rest, timeout)
		}
		if err != nil {
			last = err
		}
		fmt.Println(said(text, err))
	}
}

func dial(network, address string, timeout time.Duration) (*truetime.Session, error) {
	ctx, cancel := context.WithTimeout(context.Background(), timeout)
	defer cancel()
	if network == "tcp" {
		address = "127.0.0.1:" + address
	}
	session, err := truetime.Dial(ctx, network, address)
	if err == nil {
		session.SetTimeout(timeout)
	}
	return session, err
}

// call makes a call, and says what it gives; one that has an error says nothing that it should not.
func call(session *truetime.Session, name, rest string, timeout time.Duration) (string, error) {
	ctx := context.Background()
	switch name {
	case "ask":
		return session.Ask(ctx, rest)
	case "now":
		now, err := session.Now(ctx)
		if err != nil && (now != truetime.Interval{Earliest: 0, Latest: truetime.MaxTime}) {
			return "", errors.New("an error with an interval")
		}
		return fmt.Sprint(now.Earliest, now.Latest), err
	case "lease":
		ends := strings.Split(rest, " ")
		return "leased " + rest, session.Lease(ctx, signed(number(ends[0])), signed(number(ends[1])))
	case "after", "before":
		compare := map[string]func(context.Context, int64) (bool, error){"after": session.After, "before": session.Before}[name]
		is, err := compare(ctx, signed(number(rest)))
		if is && err != nil {
			return "", errors.New("an error with a yes")
		}
		return map[bool]string{true: "yes", false: "no"}[is], err
	}
	// Where the context ends, the session goes on; so it ends behind a reply that is late, which breaks the session.
	ctx, cancel := context.WithTimeout(ctx, timeout+300*time.Millisecond)
	defer cancel()
	var stamp int64
	var err error
	switch name {
	case "begin":
		stamp, _, err = session.Begin(context.Background(), signed(number(rest)))
	case "wait":
		stamp, err = session.Wait(ctx)
	case "commit":
		stamp, err = session.Commit(ctx, signed(number(rest)))
	}
	if stamp != 0 && err != nil {
		return "", errors.New("an error with a timestamp")
	}
	return strconv.FormatInt(stamp, 10), err
}

func tryStampers(lines *bufio.Scanner) {
	out := bufio.NewWriter(os.Stdout)
	var stamper *truetime.Stamper
	for lines.Scan() {
		name, rest, _ := strings.Cut(lines.Text(), " ")
		switch name {
		case "row":
			fmt.Fprintln(out, said(row(numbers(rest))))
		case "open":
			words := strings.Split(rest, " ")
			var err error
			stamper, err = openStamper(words[0], truetime.Lease{Lo: signed(number(words[1])), Hi: signed(number(words[2]))}, words[3:])
			fmt.Fprintln(out, said("open", err))
		case "threads":
			n := numbers(rest)
			stampInGoroutines(out, stamper, int(n[0]), int(n[1]), signed(n[2]))
		default:
			fmt.Fprintln(out, said(callStamper(stamper, name, numbers(rest))))
		}
		out.Flush()
	}
}

// row gives the timestamp behind the last one, 0 where none was given, by a reading.
func row(n []uint64) (string, error) {
	last, latest, floor, lease := signed(n[0]), signed(n[2]), signed(n[3]), truetime.Lease{Lo: signed(n[4]), Hi: signed(n[5])}
	if _, err := truetime.NewStamperWithLease(nil, lease); err != nil {
		return "", err
	}
	if 0 < last && last < math.MaxInt64 {
		last++
	}
	stamp, err := lease.StampOf(last, latest, floor)
	if stamp != 0 && err != nil {
		return "", errors.New("an error with a timestamp")
	}
	return "stamp " + strconv.FormatInt(stamp, 10), err
}

func openStamper(path string, lease truetime.Lease, limits []string) (*truetime.Stamper, error) {
	client, err := truetime.Open(path, strconv.Itoa(os.Geteuid()))
	if err != nil {
		return nil, err
	}
	stamper, err := truetime.NewStamperWithLease(client, lease)
	if err != nil || len(limits) < 2 {
		return stamper, err
	}
	return stamper, stamper.SetLimits(time.Duration(number(limits[0])), time.Duration(number(limits[1])))
}

// callStamper makes a call, and says what it gives; one that has an error says nothing that it should not.
func callStamper(stamper *truetime.Stamper, name string, n []uint64) (string, error) {
	var is bool
	var err error
	switch name {
	case "stamp":
		return stampText(stamper.Stamp(signed(n[0])))
	case "extend":
		return "extended", stamper.Extend(signed(n[0]))
	case "above":
		return "risen", stamper.RiseAbove(signed(n[0]))
	case "left":
		left, err := stamper.Left(signed(n[0]))
		return strconv.FormatInt(int64(left), 10), err
	case "past":
		is, err = stamper.IsPast(signed(n[0]))
	case "wait":
		ctx, cancel := context.WithTimeout(context.Background(), time.Duration(n[1])*time.Millisecond)
		defer cancel()
		is, err = stamper.WaitPast(ctx, signed(n[0]))
	}
	if is && err != nil {
		return "", errors.New("an error with a yes")
	}
	if errors.Is(err, context.DeadlineExceeded) {
		err = nil
	}
	return map[bool]string{true: "yes", false: "no"}[is], err
}

// stampText is what a stamp is, or its error.
func stampText(given truetime.Stamp, err error) (string, error) {
	if err != nil && (given.Timestamp != 0 || given.Interval != truetime.Interval{Earliest: 0, Latest: truetime.MaxTime}) {
		return "", errors.New("an error with a timestamp")
	}
	fresh := map[bool]string{true: "fresh", false: "stale"}[given.Fresh]
	return fmt.Sprintln("stamp", given.Timestamp, given.Earliest, given.Latest, fresh, given.Epoch), err
}

// stampInGoroutines says the timestamps of so many goroutines, which begin together; the lines of each one behind those of
// the last.
func stampInGoroutines(out *bufio.Writer, stamper *truetime.Stamper, goroutines, each int, floor int64) {
	begin, texts := make(chan struct{}), make([][]string, goroutines)
	var all sync.WaitGroup
	for number := range texts {
		all.Add(1)
		go func(number int) {
			defer all.Done()
			given, errs := make([]truetime.Stamp, each), make([]error, each)
			<-begin
			for turn := range given {
				given[turn], errs[turn] = stamper.Stamp(floor)
			}
			for turn := range given {
				texts[number] = append(texts[number], said(stampText(given[turn], errs[turn])))
			}
		}(number)
	}
	close(begin)
	all.Wait()
	for number, mine := range texts {
		for _, text := range mine {
			fmt.Fprintln(out, number, text)
		}
	}
	fmt.Fprintln(out, "end")
}

// watchInGoroutines commits so often in each of so many goroutines, beside a reader that takes snapshots at the watermark: each has
// to have all that is written up to it in the end.
func watchInGoroutines(table *truetime.PendingTable, goroutines, each int) (string, error) {
	var mutex sync.Mutex
	var log []int64
	upTo := func(mark int64) (count int) {
		for _, stamp := range log {
			if stamp <= mark {
				count++
			}
		}
		return count
	}
	over, read := make(chan struct{}), make(chan struct{})
	var marks []int64
	var seen []int
	go func() {
		defer close(read)
		for {
			select {
			case <-over:
				return
			default:
			}
			mark, _, err := table.Watermark()
			if err != nil {
				panic(err)
			}
			mutex.Lock()
			marks, seen = append(marks, mark), append(seen, upTo(mark))
			mutex.Unlock()
		}
	}()
	var all sync.WaitGroup
	for goroutine := 0; goroutine < goroutines; goroutine++ {
		all.Add(1)
		go func() {
			defer all.Done()
			for turn := 0; turn < each; turn++ {
				stamp, err := table.Begin(0)
				if err != nil {
					panic(err)
				}
				mutex.Lock()
				log = append(log, stamp)
				mutex.Unlock()
				if err := table.Written(stamp); err != nil {
					panic(err)
				}
			}
		}()
	}
	all.Wait()
	close(over)
	<-read
	torn, different := 0, map[int64]bool{}
	for place, mark := range marks {
		if upTo(mark) != seen[place] {
			torn++
		}
	}
	for _, stamp := range log {
		different[stamp] = true
	}
	some := map[bool]string{true: "some", false: "no"}[len(marks) > 0]
	return fmt.Sprintf("%d stamps, %d different, %s snapshots, %d torn", len(log), len(different), some, torn), nil
}

// callTable makes a call of a table of pending commits, and says what it gives.
func callTable(table *truetime.PendingTable, name string, n []uint64) (string, error) {
	switch name {
	case "begin":
		stamp, err := table.Begin(signed(n[0]))
		return fmt.Sprint("begun ", stamp), err
	case "written":
		return "ended", table.Written(signed(n[0]))
	case "given_up":
		return "ended", table.GiveUp(signed(n[0]))
	case "watermark":
		mark, isOne, err := table.Watermark()
		return map[bool]string{true: strconv.FormatInt(mark, 10), false: "none"}[isOne], err
	case "threads":
		return watchInGoroutines(table, int(n[0]), int(n[1]))
	}
	ctx, cancel := context.WithTimeout(context.Background(), time.Duration(n[1])*time.Millisecond)
	defer cancel()
	wait := map[bool]func(context.Context, int64) (bool, error){true: table.Release, false: table.MakeReadable}[name == "release"]
	is, err := wait(ctx, signed(n[0]))
	if errors.Is(err, context.DeadlineExceeded) {
		err = nil
	}
	return map[bool]string{true: "yes", false: "no"}[is], err
}

func tryTables(lines *bufio.Scanner) {
	var table *truetime.PendingTable
	for lines.Scan() {
		name, rest, _ := strings.Cut(lines.Text(), " ")
		if name != "open" {
			fmt.Println(said(callTable(table, name, numbers(rest))))
			continue
		}
		client, err := truetime.Open(rest, strconv.Itoa(os.Geteuid()))
		if err == nil {
			stamper := truetime.NewStamper(client)
			err = stamper.SetLimits(truetime.MaxAhead, 1)
			table = truetime.NewPendingTable(stamper)
		}
		fmt.Println(said("open", err))
	}
}

// A pooled is a pool, and what is out of it.
type pooled struct {
	*truetime.Pool
	timeout time.Duration
	out     []*truetime.Session
}

func openPool(words []string) *pooled {
	timeout := time.Duration(number(words[3])) * time.Millisecond
	return &pooled{timeout: timeout, Pool: truetime.NewPool(int(number(words[2])), func(context.Context) (*truetime.Session, error) {
		return dial(words[0], words[1], timeout)
	})}
}

func (p *pooled) hold() (string, error) {
	ctx, cancel := context.WithTimeout(context.Background(), p.timeout)
	defer cancel()
	session, err := p.Get(ctx)
	if err == nil {
		p.out = append(p.out, session)
	}
	return "held", err
}

// commits commits so often in each of so many goroutines; each keeps one session where it is alone.
func (p *pooled) commits(goroutines, each int, isAlone bool) string {
	var all sync.WaitGroup
	var mutex sync.Mutex
	stamps, different, errs := 0, map[int64]bool{}, 0
	for goroutine := 0; goroutine < goroutines; goroutine++ {
		all.Add(1)
		go func() {
			defer all.Done()
			commit := p.Commit
			if isAlone {
				session, err := p.Get(context.Background())
				if err != nil {
					panic(err)
				}
				defer p.Put(session)
				commit = session.Commit
			}
			for turn := 0; turn < each; turn++ {
				ctx, cancel := context.WithTimeout(context.Background(), p.timeout)
				stamp, err := commit(ctx, 0)
				cancel()
				mutex.Lock()
				if err != nil {
					errs++
				} else {
					stamps++
					different[stamp] = true
				}
				mutex.Unlock()
			}
		}()
	}
	all.Wait()
	return fmt.Sprintf("%d stamps, %d different, %d errors", stamps, len(different), errs)
}

func (p *pooled) call(words []string) (string, error) {
	switch words[0] {
	case "commits", "alone":
		return p.commits(int(number(words[1])), int(number(words[2])), words[0] == "alone"), nil
	case "hold":
		return p.hold()
	case "begin":
		stamp, _, err := p.out[len(p.out)-1].Begin(context.Background(), 0)
		return strconv.FormatInt(stamp, 10), err
	case "free":
		for _, session := range p.out {
			p.Put(session)
		}
		p.out = nil
		return "freed", nil
	}
	return "closed", p.Close()
}

func tryPools(lines *bufio.Scanner) {
	var pool *pooled
	for lines.Scan() {
		words := strings.Fields(lines.Text())
		if words[0] == "open" {
			pool = openPool(words[1:])
			fmt.Println("open")
			continue
		}
		fmt.Println(said(pool.call(words)))
	}
}

const questions = 3

// An opening is a reader, one with a stamper, or a session: how to ask it the time, and how to close it.
type opening struct {
	ask   func() error
	close func() error
}

func openOne(kind, where string, timeout time.Duration) (opening, error) {
	owner := strconv.Itoa(os.Geteuid())
	switch kind {
	case "mapped", "stamper", "unmapped":
		open := map[bool]func(string, string) (*truetime.Client, error){true: truetime.OpenUnmapped, false: truetime.Open}[kind == "unmapped"]
		client, err := open(where, owner)
		if err != nil {
			return opening{}, err
		}
		stamper := truetime.NewStamper(client)
		ask := func() error { _, err := client.Now(); return err }
		if kind == "stamper" {
			ask = func() error { _, err := stamper.Stamp(0); return err }
		}
		return opening{ask, client.Close}, nil
	}
	session, err := dial(kind, where, timeout)
	if err != nil {
		return opening{}, err
	}
	return opening{func() error { _, err := session.Now(context.Background()); return err }, session.Close}, nil
}

// openAll opens as many as a line wants, and counts what they answer.
func openAll(kind, where string, count int, timeout time.Duration) (all []opening, answers int) {
	for turn := 0; turn < count; turn++ {
		one, err := openOne(kind, where, timeout)
		if err != nil {
			continue
		}
		all = append(all, one)
		for question := 0; question < questions; question++ {
			if one.ask() == nil {
				answers++
			}
		}
	}
	return all, answers
}

// tryOpenings keeps what it closed: nothing of it may need the collector, but for the memory that Close let go.
func tryOpenings(lines *bufio.Scanner) {
	var all []opening
	for lines.Scan() {
		words := strings.Fields(lines.Text())
		switch words[0] {
		case "open":
			var answers int
			all, answers = openAll(words[1], words[2], int(number(words[3])), time.Duration(number(words[4]))*time.Millisecond)
			fmt.Printf("%d opened, %d answers\n", len(all), answers)
		case "close":
			for _, one := range all {
				one.close()
			}
			fmt.Println("closed")
		default:
			runtime.GC()
			for turn := 0; turn < 100 && runtime.NumGoroutine() > 1; turn++ {
				time.Sleep(10 * time.Millisecond)
			}
			fmt.Println(map[bool]string{true: "rested", false: "goroutines are left"}[runtime.NumGoroutine() == 1])
			runtime.KeepAlive(all)
		}
	}
}

func numbers(line string) (n []uint64) {
	for _, word := range strings.Fields(line) {
		n = append(n, number(word))
	}
	return n
}

// signed is a number, or the greatest that an int64 has: all that are above are above the greatest time.
func signed(n uint64) int64 {
	if n > math.MaxInt64 {
		return math.MaxInt64
	}
	return int64(n)
}

func number(text string) uint64 {
	value, err := strconv.ParseUint(text, 10, 64)
	if err != nil {
		panic(err)
	}
	return value
}

// said is the line of a call: what it gives, or its error.
func said(text string, err error) string {
	var refusal truetime.Refusal
	var pending *truetime.PendingError
	var broken *truetime.BrokenError
	switch {
	case err == nil:
		return strings.TrimSuffix(text, "\n")
	case errors.As(err, &pending):
		return fmt.Sprintf("refused %d %d %d", uint16(truetime.CommitPending), pending.Commit, pending.Stamp)
	case errors.As(err, &refusal):
		return fmt.Sprintf("refused %d", uint16(refusal))
	case errors.As(err, &broken):
		return saidOfBroken(broken)
	case errors.Is(err, os.ErrDeadlineExceeded), errors.Is(err, context.DeadlineExceeded):
		return "timed out"
	case errors.Is(err, truetime.ErrNoCommit), errors.Is(err, truetime.ErrBadLine), errors.Is(err, truetime.ErrNotPending):
		return "invalid"
	case errors.Is(err, truetime.ErrPoolClosed):
		return "failed"
	}
	var failed interface{ Timeout() bool }
	if errors.As(err, &failed) { // of Dial
		return "failed"
	}
	return err.Error()
}

// saidOfBroken is a connection that failed, with what was lost by that.
func saidOfBroken(broken *truetime.BrokenError) string {
	text := map[bool]string{true: "timed out", false: "failed"}[errors.Is(broken, os.ErrDeadlineExceeded)]
	if broken.Commit != 0 {
		text += fmt.Sprintf(" %d %d", broken.Commit, broken.Stamp)
	}
	if broken.LostLease {
		text += " lease"
	}
	return text
}
