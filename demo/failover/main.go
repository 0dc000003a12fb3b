// Command failover is a shard of a key-value store on the time service. Its leader moves; etcd says who leads, and within which
// span of stamps.
//
//	failover agent -name A -listen ADDRESS -etcd URL,URL,URL -machine ADDRESS|FILE   a replica, which leads or follows
//	failover users -agents ADDRESS,ADDRESS -history FILE                            users, until standard input ends
package main

import (
	"bufio"
	"context"
	"errors"
	"flag"
	"fmt"
	"io"
	"log"
	"net/http"
	"os"
	"os/signal"
	"strings"
	"syscall"
	"time"
)

func main() {
	log.SetFlags(log.LstdFlags | log.Lmicroseconds)
	commands := map[string]func([]string) error{"agent": runAgent, "users": runUsers}
	if len(os.Args) < 2 || commands[os.Args[1]] == nil {
		fmt.Fprintln(os.Stderr, "usage: failover agent|users [-h]")
		os.Exit(2)
	}
	if err := commands[os.Args[1]](os.Args[2:]); err != nil {
		log.Fatal(err)
	}
}

func runAgent(words []string) error {
	flags := flag.NewFlagSet("agent", flag.ExitOnError)
	name := flags.String("name", "A", "its name")
	listen := flags.String("listen", "127.0.0.1:7001", "where users ask")
	shard := flags.Int("shard", 1, "the number of the shard")
	members := flags.String("etcd", "http://127.0.0.1:2379", "the members of etcd")
	machine := flags.String("machine", "127.0.0.1:5601",
		"this host's machine: its address, for stamps by sessions, or the file that it shares, for a stamper")
	sessions := flags.Int("sessions", 6, "sessions that commit; the machine's workers have to be enough for twice as many and two")
	ttl := flags.Duration("ttl", time.Second, "etcd's lease, in whole seconds")
	span := flags.Duration("span", 800*time.Millisecond, "how far a span reaches ahead, at most the machine's floor_ahead")
	noSpans := flags.Bool("no-spans", false, "the control: stamp without spans, which is wrong")
	flags.Parse(words)

	a := &agent{name: *name, prefix: fmt.Sprintf("shard/%d/", *shard), ttl: *ttl, span: *span, noSpans: *noSpans}
	a.etcd = newEtcd(strings.Split(*members, ","), *ttl*2/5)
	a.openClock = func(ctx context.Context) (clock, error) {
		if strings.Contains(*machine, "/") {
			return openStampers(*machine)
		}
		return openSessions(ctx, *machine, *sessions, *ttl/2)
	}
	ctx, stop := signal.NotifyContext(context.Background(), syscall.SIGTERM, os.Interrupt)
	defer stop()
	r := &replica{keys: map[string][]version{}}
	go r.followAll(ctx, a.etcd, a.dataKey())
	served := http.Server{Addr: *listen, Handler: (&server{a, r}).handler()}
	failed := make(chan error, 1)
	go func() { failed <- served.ListenAndServe() }()
	go func() {
		a.run(ctx)
		last, cancel := context.WithTimeout(context.Background(), longestCommit)
		defer cancel()
		served.Shutdown(last) // once the commits that have begun have ended
		failed <- nil
	}()
	if err := <-failed; !errors.Is(err, http.ErrServerClosed) {
		return err
	}
	return <-failed
}

func runUsers(words []string) error {
	flags := flag.NewFlagSet("users", flag.ExitOnError)
	agents := flags.String("agents", "127.0.0.1:7001", "the agents")
	shard := flags.Int("shard", 1, "the number of the shard")
	number := flags.Int("users", 8, "how many users")
	patience := flags.Duration("patience", time.Second, "how long a user waits for an answer")
	pause := flags.Duration("pause", 0, "how long a user pauses before a commit at most")
	path := flags.String("history", "history", "the file for the commits that are acknowledged")
	flags.Parse(words)

	file, err := os.Create(*path)
	if err != nil {
		return err
	}
	defer file.Close()
	u := &users{agents: strings.Split(*agents, ","), shard: *shard, pause: *pause, started: time.Now(), history: bufio.NewWriter(file)}
	u.client.Timeout = *patience
	u.client.Transport = &http.Transport{MaxIdleConnsPerHost: *number}
	ctx, cancel := context.WithCancel(context.Background())
	go func() {
		io.Copy(io.Discard, os.Stdin)
		cancel()
	}()
	fmt.Println("missing", u.run(ctx, *number))
	return u.history.Flush()
}
