package main

import (
	"bufio"
	"fmt"
	"os"
	"runtime"
	"strconv"
	"strings"
	"sync"
	"sync/atomic"
	"time"

	"example.org/truetime/clients/go/truetime"
)

// A rereading is goroutines that read again and again, and what they saw: a bit for each epoch, and how many readings were torn
// and refused.
type rereading struct {
	isOver                atomic.Bool
	all                   sync.WaitGroup
	mutex                 sync.Mutex
	epochs, torn, refused uint64
}

func (r *rereading) start(client *truetime.Client, count int) {
	for goroutine := 0; goroutine < count; goroutine++ {
		r.all.Add(1)
		go func() {
			defer r.all.Done()
			var epochs, torn, refused uint64
			for !r.isOver.Load() {
				now, err := client.Now()
				if err != nil {
					refused++
					continue
				}
				epochs |= 1 << now.Epoch
				if uint64(now.Latest-now.Earliest) != now.Epoch {
					torn++
				}
			}
			r.mutex.Lock()
			defer r.mutex.Unlock()
			r.epochs, r.torn, r.refused = r.epochs|epochs, r.torn+torn, r.refused+refused
		}()
	}
}

func (r *rereading) end() string {
	r.isOver.Store(true)
	r.all.Wait()
	var text strings.Builder
	for epoch := 0; epoch < 64; epoch++ {
		if r.epochs>>epoch&1 != 0 {
			fmt.Fprint(&text, epoch, " ")
		}
	}
	return fmt.Sprintf("%vseen, %d torn, %d refused", text.String(), r.torn, r.refused)
}

func tryRenewals(lines *bufio.Scanner) {
	var client *truetime.Client
	var stamper *truetime.Stamper
	var running *rereading
	for lines.Scan() {
		words := strings.Split(lines.Text(), " ")
		text, err := "rested", error(nil)
		switch words[0] {
		case "open":
			open := map[string]func(path, owner string) (*truetime.Client, error){"mapped": truetime.Open, "unmapped": truetime.OpenUnmapped}
			client, err = open[words[1]](words[2], strconv.Itoa(os.Geteuid()))
			if err == nil && len(words) == 4 {
				client.SetMaxWidth(time.Duration(number(words[3])))
			}
			stamper = truetime.NewStamper(client)
			text = "open"
		case "stamp":
			text, err = stampText(stamper.Stamp(0))
			text = strings.Split(text, " ")[1]
		case "now":
			var now truetime.Reading
			now, err = client.Now()
			fresh := map[bool]string{true: "fresh", false: "stale"}[now.Fresh]
			text = fmt.Sprint(now.Epoch, " ", now.Latest-now.Earliest, " ", fresh)
		case "threads":
			running = &rereading{}
			running.start(client, int(number(words[1])))
			text = "started"
		case "end":
			text = running.end()
		case "close":
			client.Close()
			text = "closed"
		default:
			runtime.GC()
		}
		fmt.Println(said(text, err))
	}
}
