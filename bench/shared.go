// Command shared says what a reading of the shared file takes by the Go client, for bench/service.
//
//	shared PATH
//
// It prints the least nanoseconds of 500 batches of 1,000 calls, by the call.
package main

import (
	"fmt"
	"log"
	"os"
	"strconv"
	"time"

	"example.org/truetime/clients/go/truetime"
)

const batches, calls = 500, 1000

func main() {
	log.SetFlags(0)
	client, err := truetime.Open(os.Args[1], strconv.Itoa(os.Geteuid()))
	if err != nil {
		log.Fatal(err)
	}
	var sum int64
	least := time.Duration(1<<63 - 1)
	for batch := 0; batch < batches; batch++ {
		since := time.Now()
		for call := 0; call < calls; call++ {
			now, err := client.Now()
			if err != nil {
				log.Fatal(err)
			}
			sum += now.Earliest
		}
		if took := time.Since(since); took < least {
			least = took
		}
	}
	if sum == 0 {
		log.Fatal("no time")
	}
	fmt.Printf("%.1f\n", float64(least)/calls)
}
