// Command reader reads a shared file until it is killed: tools/suites/slews.py says which lines it prints.
package main

import (
	"bufio"
	"errors"
	"fmt"
	"log"
	"os"
	"strconv"
	"time"

	"example.org/truetime/clients/go/truetime"
)

const atOnce = 20

func look(out *bufio.Writer, client *truetime.Client) {
	var refused truetime.Refusal
	before := time.Now().UnixNano()
	now, err := client.Now()
	after := time.Now().UnixNano()
	if err != nil && !errors.As(err, &refused) {
		log.Fatal(err)
	}
	fmt.Fprintln(out, before, after, uint16(refused), now.Earliest, now.Latest)
}

func main() {
	client, err := truetime.Open(os.Args[1], strconv.Itoa(os.Geteuid()))
	if err != nil {
		log.Fatal(err)
	}
	out := bufio.NewWriter(os.Stdout)
	for {
		for turn := 0; turn < atOnce; turn++ {
			look(out, client)
		}
		out.Flush()
		time.Sleep(5 * time.Millisecond)
	}
}
