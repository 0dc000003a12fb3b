package truetime_test

import (
	"bufio"
	"context"
	"errors"
	"fmt"
	"log"
	"net"
	"time"

	"example.org/truetime/clients/go/truetime"
)

// startStandIn gives the address of a stand-in for the service, which gives these replies on its one connection.
func startStandIn(replies ...string) string { return startStandIns(replies) }

// startStandIns has replies for each connection, which it closes at a line that has none.
func startStandIns(connections ...[]string) string {
	listener, err := net.Listen("tcp", "127.0.0.1:0")
	if err != nil {
		log.Fatal(err)
	}
	go func() {
		defer listener.Close()
		for _, replies := range connections {
			conn, err := listener.Accept()
			if err != nil {
				log.Fatal(err)
			}
			for lines := bufio.NewScanner(conn); lines.Scan() && len(replies) > 0; replies = replies[1:] {
				fmt.Fprintln(conn, replies[0])
			}
			conn.Close()
		}
	}()
	return listener.Addr().String()
}

// A commit: its timestamp first, then the wait, and only then the answer to who asked for it.
func Example() {
	address := startStandIn("waiting 1 200", "waiting 1 200", "committed 1 200") // in place of "127.0.0.1:5601"
	ctx, cancel := context.WithTimeout(context.Background(), 10*time.Second)
	defer cancel()
	session, err := truetime.Dial(ctx, "tcp", address)
	if err != nil {
		log.Fatal(err)
	}
	defer session.Close()
	stamp, isCommitted, err := session.Begin(ctx, 0)
	if err != nil {
		log.Fatal(err)
	}
	fmt.Println("write and commit locally, under", stamp, isCommitted)
	if _, err := session.Wait(ctx); err != nil {
		log.Fatal(err) // nobody may be told of the commit
	}
	fmt.Println("committed at", stamp)
	// Output:
	// write and commit locally, under 200 false
	// committed at 200
}

// A machine says no, by a number, and the session goes on.
func ExampleRefusal() {
	ctx := context.Background()
	session, err := truetime.Dial(ctx, "tcp", startStandIn("refused 801", "now 5 15"))
	if err != nil {
		log.Fatal(err)
	}
	defer session.Close()
	_, err = session.Now(ctx)
	var refusal truetime.Refusal
	if errors.As(err, &refusal) {
		fmt.Println(uint16(refusal), errors.Is(err, truetime.Nothing))
	}
	now, err := session.Now(ctx)
	fmt.Println(now.Earliest, now.Latest, err)
	// Output:
	// 801 true
	// 5 15 <nil>
}

// The wait is given up, and taken up again later.
func ExampleSession_Wait() {
	session, err := truetime.Dial(context.Background(), "tcp", startStandIn("waiting 1 200", "committed 1 200"))
	if err != nil {
		log.Fatal(err)
	}
	defer session.Close()
	if _, _, err := session.Begin(context.Background(), 0); err != nil {
		log.Fatal(err)
	}
	ctx, cancel := context.WithCancel(context.Background())
	cancel()
	_, err = session.Wait(ctx)
	fmt.Println(err)
	fmt.Println(session.Wait(context.Background()))
	// Output:
	// context canceled
	// 200 <nil>
}

// The service is started again: the call fails, and the next one connects anew. No commit begins before the lease is set again.
func ExampleSession_Lease() {
	ctx := context.Background()
	session, err := truetime.Dial(ctx, "tcp", startStandIns([]string{"leased 0 900"}, []string{"leased 0 900", "waiting 1 200"}))
	if err != nil {
		log.Fatal(err)
	}
	defer session.Close()
	if err := session.Lease(ctx, 0, 900); err != nil {
		log.Fatal(err)
	}
	_, _, err = session.Begin(ctx, 0)
	var broken *truetime.BrokenError
	fmt.Println("failed:", errors.As(err, &broken))
	_, _, err = session.Begin(ctx, 0)
	fmt.Println("without a lease:", errors.Is(err, truetime.LeaseOver))
	fmt.Println(session.Lease(ctx, 0, 900))
	fmt.Println(session.Begin(ctx, 0))
	// Output:
	// failed: true
	// without a lease: true
	// <nil>
	// 200 false <nil>
}

func ExamplePublication_At() {
	published := truetime.Publication{Clock: 1000, Lo: 5, Hi: 15, Drift: 200, ValidUntil: 5000, UsableUntil: 1<<64 - 1}
	now, err := published.At(6000)
	fmt.Println(now.Earliest, now.Latest, now.Fresh, err)
	fmt.Println(now.After(5003), now.After(5004), now.Before(5016), now.Before(5017))
	// Output:
	// 5004 5016 false <nil>
	// true false false true
}
