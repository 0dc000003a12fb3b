package main

import (
	"context"
	"encoding/json"
	"fmt"
	"net/http"
	"net/http/httptest"
	"strconv"
	"sync"
	"testing"
	"time"
)

// A cluster stands in for etcd: of its requests and of transactions it knows what agents send.
type cluster struct {
	mutex    sync.Mutex
	revision int64
	pairs    map[string]pair
	leases   map[int64]bool
	lost     int // so many transactions are done and not answered
}

type request struct {
	ID      int64 `json:",string"`
	Key     []byte
	Compare []struct {
		Key            []byte
		Target         string
		CreateRevision int64 `json:"create_revision,string"`
		ModRevision    int64 `json:"mod_revision,string"`
	}
	Success []struct {
		Put struct {
			Key, Value []byte
			Lease      int64 `json:",string"`
		} `json:"request_put"`
	}
	Failure []struct {
		Range struct{ Key []byte } `json:"request_range"`
	}
}

func newCluster(t *testing.T) (*cluster, *etcd) {
	c := &cluster{revision: 1, pairs: map[string]pair{}, leases: map[int64]bool{}}
	served := httptest.NewServer(c)
	t.Cleanup(served.Close)
	return c, newEtcd([]string{served.URL, served.URL}, 5*time.Second)
}

func (c *cluster) ServeHTTP(w http.ResponseWriter, r *http.Request) {
	var asked request
	if err := json.NewDecoder(r.Body).Decode(&asked); err != nil {
		http.Error(w, err.Error(), http.StatusBadRequest)
		return
	}
	c.mutex.Lock()
	defer c.mutex.Unlock()
	answer := object{}
	switch r.URL.Path {
	case "/v3/lease/grant":
		id := int64(len(c.leases) + 100)
		c.leases[id] = true
		answer = object{"ID": number(id), "TTL": "1"}
	case "/v3/lease/keepalive":
		answer = object{"result": object{"ID": number(asked.ID)}}
		if c.leases[asked.ID] {
			answer = object{"result": object{"ID": number(asked.ID), "TTL": "1"}}
		}
	case "/v3/lease/revoke":
		c.end(asked.ID)
	case "/v3/kv/range":
		answer = c.read(asked.Key)
	case "/v3/kv/txn":
		answer = c.txn(asked)
		if c.lost > 0 {
			c.lost--
			http.Error(w, "lost", http.StatusServiceUnavailable)
			return
		}
	}
	json.NewEncoder(w).Encode(answer)
}

// end ends a lease with its keys.
func (c *cluster) end(lease int64) {
	c.leases[lease] = false
	for key, found := range c.pairs {
		if found.Lease == lease {
			delete(c.pairs, key)
		}
	}
}

func (c *cluster) read(key []byte) object {
	found, isThere := c.pairs[string(key)]
	if !isThere {
		return object{}
	}
	return object{"kvs": []object{{"key": key, "value": found.Value, "create_revision": number(found.CreateRevision),
		"mod_revision": number(found.ModRevision), "lease": number(found.Lease)}}}
}

func (c *cluster) txn(asked request) object {
	for _, compare := range asked.Compare {
		found := c.pairs[string(compare.Key)]
		isSo := found.CreateRevision == compare.CreateRevision
		if compare.Target == "MOD" {
			isSo = found.ModRevision == compare.ModRevision
		}
		if !isSo {
			reads := []object{}
			for _, read := range asked.Failure {
				reads = append(reads, object{"response_range": c.read(read.Range.Key)})
			}
			return object{"header": object{"revision": number(c.revision)}, "responses": reads}
		}
	}
	c.revision++
	for _, then := range asked.Success {
		put := pair{Value: then.Put.Value, CreateRevision: c.revision, ModRevision: c.revision, Lease: then.Put.Lease}
		if before, isThere := c.pairs[string(then.Put.Key)]; isThere {
			put.CreateRevision = before.CreateRevision
		}
		c.pairs[string(then.Put.Key)] = put
	}
	return object{"header": object{"revision": number(c.revision)}, "succeeded": true, "responses": []object{{"response_put": object{}}}}
}

func TestTheNextMemberIsAsked(t *testing.T) {
	_, live := newCluster(t)
	dead := httptest.NewServer(http.NotFoundHandler())
	dead.Close()
	e := newEtcd([]string{dead.URL, live.members[0]}, time.Second)
	lease, err := e.grantLease(context.Background(), time.Second)
	if err != nil {
		t.Fatal(err)
	}
	if err := e.keepAlive(context.Background(), lease); err != nil {
		t.Error(err)
	}
	if err := e.revoke(context.Background(), lease); err != nil {
		t.Error(err)
	}
	if err := e.keepAlive(context.Background(), lease); err != errNoLease {
		t.Error(err)
	}
}

func TestAllIsReadAsItWasAtFirst(t *testing.T) {
	var asked []string
	served := httptest.NewServer(http.HandlerFunc(func(w http.ResponseWriter, r *http.Request) {
		var page struct {
			Key      []byte
			End      []byte `json:"range_end"`
			Revision string
		}
		json.NewDecoder(r.Body).Decode(&page)
		asked = append(asked, fmt.Sprintf("%q %q %s", page.Key, page.End, page.Revision))
		if len(asked) == 1 {
			fmt.Fprintln(w, `{"header":{"revision":"9"},"kvs":[{"key":"ZGF0YS9rLzc=","value":"MyB2"}],"more":true}`)
		} else {
			fmt.Fprintln(w, `{"header":{"revision":"12"},"kvs":[{"key":"ZGF0YS9rLzg=","value":"MyB3"}]}`)
		}
	}))
	defer served.Close()
	e, at, came := newEtcd([]string{served.URL}, time.Second), page{key: "data/"}, ""
	for !at.isLast {
		var err error
		if at, err = e.read(context.Background(), "data/", at, func(put pair) { came += fmt.Sprintf("%s %s;", put.Key, put.Value) }); err != nil {
			t.Fatal(err)
		}
	}
	if came != "data/k/7 3 v;data/k/8 3 w;" || at.revision != 9 {
		t.Error(came, at)
	}
	if got := fmt.Sprint(asked); got != `["data/" "data0" 0 "data/k/7\x00" "data0" 9]` {
		t.Error(got)
	}
}

func TestWritesAreFollowedOnFromTheLastOne(t *testing.T) {
	served := httptest.NewServer(http.HandlerFunc(func(w http.ResponseWriter, r *http.Request) {
		var asked struct {
			Create struct {
				Key   []byte `json:"key"`
				End   []byte `json:"range_end"`
				Start string `json:"start_revision"`
			} `json:"create_request"`
		}
		json.NewDecoder(r.Body).Decode(&asked)
		start, _ := strconv.ParseInt(asked.Create.Start, 10, 64)
		if string(asked.Create.Key) != "data/" || string(asked.Create.End) != "data0" {
			t.Errorf("watched is %q to %q", asked.Create.Key, asked.Create.End)
		}
		fmt.Fprintln(w, `{"result":{"created":true}}`)
		for revision := start; revision < start+2; revision++ {
			event := object{"kv": object{"key": []byte("data/k/7"), "value": []byte("3 v"), "mod_revision": number(revision)}}
			json.NewEncoder(w).Encode(object{"result": object{"events": []object{event}}})
		}
		w.(http.Flusher).Flush()
		<-r.Context().Done() // a member that says nothing any more
	}))
	defer served.Close()
	e, next := newEtcd([]string{served.URL}, time.Second), int64(5)
	var came []int64
	for range [2]int{} {
		next, _ = e.follow(context.Background(), 0, "data/", next, 50*time.Millisecond, func(put pair) { came = append(came, put.ModRevision) })
	}
	if fmt.Sprint(came, next) != "[5 6 7 8] 9" {
		t.Error(came, next)
	}
}
