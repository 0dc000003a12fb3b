//go:build linux && (amd64 || arm64 || loong64 || mips64le || ppc64le || riscv64) && !truetime_nofile

package truetime_test

import (
	"context"
	"encoding/binary"
	"fmt"
	"log"
	"os"
	"strconv"
	"time"

	"example.org/truetime/clients/go/truetime"
)

// shareTime writes the file of a daemon that published once, as the clock of the host began, in place of
// "/run/truetime/time": an interval of a microsecond, and no drift.
func shareTime() (path, owner string) {
	boot, err := os.ReadFile("/proc/sys/kernel/random/boot_id")
	if err != nil {
		log.Fatal(err)
	}
	const index, noLimit = 1, 1<<64 - 1
	published := [...]uint64{index, 0, 1_000_000_000, 1_000_001_000, noLimit, 7, 1, 0, noLimit}
	file := make([]byte, 320)
	copy(file, "TTS3\x40\x01\x00\x00\x01") // by CLOCK_MONOTONIC
	binary.LittleEndian.PutUint64(file[16:], index)
	copy(file[24:60], boot)
	for place, number := range published {
		binary.LittleEndian.PutUint64(file[192+8*place:], number)
	}
	out, err := os.CreateTemp("", "truetime")
	if err != nil {
		log.Fatal(err)
	}
	defer out.Close()
	if _, err := out.Write(file); err != nil {
		log.Fatal(err)
	}
	return out.Name(), strconv.Itoa(os.Geteuid())
}

// The time from the shared file.
func ExampleOpen() {
	path, owner := shareTime() // in place of "/run/truetime/time" and "truetime"
	defer os.Remove(path)
	client, err := truetime.Open(path, owner)
	if err != nil {
		log.Fatal(err)
	}
	defer client.Close()
	now, err := client.Now()
	if err != nil {
		log.Fatal(err)
	}
	fmt.Println(now.Latest-now.Earliest, now.Epoch, now.Fresh)
	fmt.Println(now.After(1_000_000_000), now.Before(1_000_000_000))
	// Output:
	// 1000 7 true
	// true false
}

// A commit whose timestamp is taken in the process itself.
func ExampleStamper() {
	path, owner := shareTime()
	defer os.Remove(path)
	client, err := truetime.Open(path, owner)
	if err != nil {
		log.Fatal(err)
	}
	defer client.Close()
	stamper, err := truetime.NewStamperWithLease(client, truetime.Lease{Lo: 0, Hi: truetime.MaxTime})
	if err != nil {
		log.Fatal(err)
	}
	given, err := stamper.Stamp(0)
	if err != nil {
		log.Fatal(err)
	}
	// Write and commit locally, under given.Timestamp.
	ctx, cancel := context.WithTimeout(context.Background(), 10*time.Second)
	defer cancel()
	isPast, err := stamper.WaitPast(ctx, given.Timestamp) // only then may anybody be told
	fmt.Println(given.Timestamp == given.Latest, isPast, err)
	// Output:
	// true true <nil>
}
