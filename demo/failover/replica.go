package main

import (
	"context"
	"fmt"
	"io"
	"log"
	"math"
	"net/http"
	"path"
	"strconv"
	"strings"
	"sync"
	"time"
)

// longestCommit is how long the calls of one commit may take in all.
const longestCommit = 10 * time.Second

// A replica has the versions of a shard's keys, as far as it has followed etcd.
type replica struct {
	mutex sync.RWMutex
	keys  map[string][]version // in the order in which they were written
}

// A version is what a commit wrote.
type version struct {
	stamp int64
	term  int64
	value string
}

func (v version) String() string { return fmt.Sprintf("%d %d %s", v.stamp, v.term, v.value) }

// followAll applies what stands below a prefix, and then what is written there until the context ends, by one member after the other. To
// follow all writes from the first one on would have etcd look through all of them again and again.
func (r *replica) followAll(ctx context.Context, from *etcd, prefix string) {
	put := func(put pair) {
		if err := r.apply(strings.TrimPrefix(string(put.Key), prefix), string(put.Value)); err != nil {
			log.Printf("%s: %v", put.Key, err)
		}
	}
	at := page{key: prefix}
	for ctx.Err() == nil && !at.isLast {
		var err error
		if at, err = from.read(ctx, prefix, at, put); err != nil {
			sleep(ctx, tick)
		}
	}
	next := at.revision + 1
	for member := 0; ctx.Err() == nil; member++ {
		next, _ = from.follow(ctx, member, prefix, next, time.Second, put)
		sleep(ctx, tick)
	}
}

// parseTime reads a time, which is not negative.
func parseTime(text string) (int64, error) {
	time, err := strconv.ParseUint(text, 10, 63)
	return int64(time), err
}

// apply adds a version: its name is KEY/STAMP, its text `TERM VALUE`.
func (r *replica) apply(name, text string) error {
	key, last := path.Split(name)
	first, value, _ := strings.Cut(text, " ")
	stamp, err := parseTime(last)
	if err != nil {
		return err
	}
	term, err := strconv.ParseInt(first, 10, 64)
	if err != nil {
		return err
	}
	r.mutex.Lock()
	defer r.mutex.Unlock()
	r.keys[key] = append(r.keys[key], version{stamp, term, value})
	return nil
}

// last gives the version of a key with the greatest stamp that is at most `at`.
func (r *replica) last(key string, at int64) (last version, isThere bool) {
	for _, version := range r.all(key) {
		if version.stamp <= at && (!isThere || last.stamp < version.stamp) {
			last, isThere = version, true
		}
	}
	return last, isThere
}

// all gives all versions of a key.
func (r *replica) all(key string) []version {
	r.mutex.RLock()
	defer r.mutex.RUnlock()
	return r.keys[key+"/"] // nobody writes the part that this gives
}

// A server answers the users of one agent:
//
//	PUT /keys/KEY                stamp and term of the commit; 503 where it is not known to be done
//	GET /keys/KEY[?at=STAMP]     stamp, term and value of the last version that the replica has, up to a stamp
//	GET /versions/KEY            those of all versions
//	GET /term                    the term that the agent leads, or 0
type server struct {
	agent   *agent
	replica *replica
}

func (s *server) handler() http.Handler {
	mux := http.NewServeMux()
	mux.HandleFunc("/keys/", func(w http.ResponseWriter, r *http.Request) {
		key := strings.TrimPrefix(r.URL.Path, "/keys/")
		switch r.Method {
		case http.MethodPut:
			s.put(w, r, key)
		case http.MethodGet:
			s.get(w, r, key)
		default:
			http.Error(w, "PUT or GET", http.StatusMethodNotAllowed)
		}
	})
	mux.HandleFunc("/versions/", func(w http.ResponseWriter, r *http.Request) {
		for _, version := range s.replica.all(strings.TrimPrefix(r.URL.Path, "/versions/")) {
			fmt.Fprintln(w, version)
		}
	})
	mux.HandleFunc("/term", func(w http.ResponseWriter, r *http.Request) {
		if t := s.agent.current.Load(); t != nil {
			fmt.Fprintln(w, t.number)
		} else {
			fmt.Fprintln(w, 0)
		}
	})
	return mux
}

func (s *server) put(w http.ResponseWriter, r *http.Request, key string) {
	value, err := io.ReadAll(http.MaxBytesReader(w, r.Body, 1<<16))
	if err != nil {
		http.Error(w, err.Error(), http.StatusBadRequest)
		return
	}
	// A user who leaves ends no commit.
	ctx, cancel := context.WithTimeout(context.Background(), longestCommit)
	defer cancel()
	stamp, term, err := s.agent.commit(ctx, key, string(value))
	if err != nil {
		http.Error(w, err.Error(), http.StatusServiceUnavailable)
		return
	}
	fmt.Fprintln(w, stamp, term)
}

func (s *server) get(w http.ResponseWriter, r *http.Request, key string) {
	at := int64(math.MaxInt64)
	if text := r.URL.Query().Get("at"); text != "" {
		var err error
		if at, err = parseTime(text); err != nil {
			http.Error(w, err.Error(), http.StatusBadRequest)
			return
		}
	}
	version, isThere := s.replica.last(key, at)
	if !isThere {
		http.NotFound(w, r)
		return
	}
	fmt.Fprintln(w, version)
}
