package main

import (
	"bufio"
	"context"
	"fmt"
	"io"
	"math/rand"
	"net/http"
	"strings"
	"sync"
	"time"
)

// Users write keys of their own at whatever agent leads, and remember what was acknowledged.
type users struct {
	agents  []string // their addresses
	shard   int
	pause   time.Duration // before a commit, at most
	client  http.Client
	started time.Time

	mutex   sync.Mutex
	history *bufio.Writer // for `ttd judge`, a line for each commit that was acknowledged
}

// now gives the time in nanoseconds. It never goes back.
func (u *users) now() int64 { return u.started.UnixNano() + int64(time.Since(u.started)) }

// write writes one value after the other until the context ends, and gives the stamps of the commits that were acknowledged.
func (u *users) write(ctx context.Context, key string) (stamps []int64) {
	for at, count := 0, 0; ctx.Err() == nil; count++ {
		sleep(ctx, time.Duration(rand.Int63n(int64(u.pause)+1)))
		var stamp int64
		var term int64
		began := u.now()
		text, err := u.ask(http.MethodPut, u.agents[at]+"/keys/"+key, fmt.Sprint(count))
		if err == nil {
			_, err = fmt.Sscan(text, &stamp, &term)
		}
		if err != nil { // it may have been done; the next one is another commit
			at = (at + 1) % len(u.agents)
			sleep(ctx, 5*time.Millisecond)
			continue
		}
		stamps = append(stamps, stamp)
		u.mutex.Lock()
		fmt.Fprintln(u.history, "commit", began, u.now(), stamp, u.shard, term)
		u.mutex.Unlock()
	}
	return stamps
}

func (u *users) ask(method, url, given string) (string, error) {
	request, err := http.NewRequest(method, "http://"+url, strings.NewReader(given))
	if err != nil {
		return "", err
	}
	response, err := u.client.Do(request)
	if err != nil {
		return "", err
	}
	defer response.Body.Close()
	text, err := io.ReadAll(response.Body)
	if err == nil && response.StatusCode != http.StatusOK {
		err = fmt.Errorf("%s: %s", response.Status, text)
	}
	return string(text), err
}

// missing gives how many of these versions an agent's replica does not have, once it has gained none for some time: an agent that was just
// started follows all that was ever written.
func (u *users) missing(agent, key string, stamps []int64) (missing int) {
	missing = len(stamps) + 1
	for try := 0; try < 100 && missing > 0; try++ {
		text, _ := u.ask(http.MethodGet, agent+"/versions/"+key, "")
		has := map[int64]bool{}
		for _, line := range strings.Split(text, "\n") {
			var stamp int64
			fmt.Sscan(line, &stamp)
			has[stamp] = true
		}
		lacks := 0
		for _, stamp := range stamps {
			if !has[stamp] {
				lacks++
			}
		}
		if lacks < missing {
			missing, try = lacks, 0
		}
		time.Sleep(50 * time.Millisecond)
	}
	return missing
}

// run has users write until the context ends, and gives how many versions that were acknowledged some replica does not have.
func (u *users) run(ctx context.Context, number int) (missing int) {
	stamps := make([][]int64, number)
	keyOf := func(user int) string { return fmt.Sprintf("user-%d", user) }
	var writing sync.WaitGroup
	for user := range stamps {
		writing.Add(1)
		go func(user int) {
			defer writing.Done()
			stamps[user] = u.write(ctx, keyOf(user))
		}(user)
	}
	writing.Wait()
	for user := range stamps {
		for _, agent := range u.agents {
			missing += u.missing(agent, keyOf(user), stamps[user])
		}
	}
	return missing
}
