package main

import (
	"bytes"
	"context"
	"encoding/json"
	"errors"
	"fmt"
	"io"
	"net/http"
	"strconv"
	"strings"
	"sync/atomic"
	"time"
)

var (
	errNoLease  = errors.New("etcd: the lease is over")
	errNoAnswer = errors.New("etcd: no member answered")
)

// An etcd is a cluster, asked by the JSON gateway of its v3 API.
type etcd struct {
	members []string      // as "http://127.0.0.1:2379"
	timeout time.Duration // of the answer of one member
	client  http.Client
	first   atomic.Int32 // the member that is asked first
}

func newEtcd(members []string, timeout time.Duration) *etcd {
	return &etcd{members: members, timeout: timeout, client: http.Client{Transport: &http.Transport{MaxIdleConnsPerHost: 64}}}
}

// An object is one of JSON. Bytes in it are written in base64, and numbers as texts, as the gateway wants both.
type object map[string]any

// A pair is a key with its value; none is all zeros.
type pair struct {
	Value          []byte `json:"value"`
	CreateRevision int64  `json:"create_revision,string"`
	ModRevision    int64  `json:"mod_revision,string"`
	Lease          int64  `json:"lease,string"`
	Key            []byte `json:"key"`
}

// found is what a read of one key found.
type found struct {
	Kvs []pair `json:"kvs"`
}

func (f found) pair() pair {
	if len(f.Kvs) == 0 {
		return pair{}
	}
	return f.Kvs[0]
}

// call asks one member after the other until one answers. What was asked may have been done also where none did, and more
// than once, and may still be done later: what is asked has to allow for that.
func (e *etcd) call(ctx context.Context, path string, request object, answer any) error {
	body, err := json.Marshal(request)
	if err != nil {
		return err
	}
	for range e.members {
		first := e.first.Load()
		err = e.ask(ctx, e.members[first], path, body, answer)
		if err == nil || errors.Is(err, errNoLease) {
			return err
		}
		e.first.CompareAndSwap(first, (first+1)%int32(len(e.members)))
		if ctx.Err() != nil {
			break
		}
	}
	return fmt.Errorf("%w: %s: %v", errNoAnswer, path, err)
}

func (e *etcd) ask(ctx context.Context, member, path string, body []byte, answer any) error {
	ctx, cancel := context.WithTimeout(ctx, e.timeout)
	defer cancel()
	response, err := e.post(ctx, member, path, body)
	if err != nil {
		return err
	}
	defer response.Body.Close()
	if err := json.NewDecoder(response.Body).Decode(answer); err != nil {
		return err
	}
	_, err = io.Copy(io.Discard, response.Body) // so that the connection is used again
	return err
}

func (e *etcd) post(ctx context.Context, member, path string, body []byte) (*http.Response, error) {
	request, err := http.NewRequestWithContext(ctx, http.MethodPost, member+"/v3/"+path, bytes.NewReader(body))
	if err != nil {
		return nil, err
	}
	response, err := e.client.Do(request)
	if err != nil || response.StatusCode == http.StatusOK {
		return response, err
	}
	defer response.Body.Close()
	text, _ := io.ReadAll(io.LimitReader(response.Body, 1000))
	if strings.Contains(string(text), "requested lease not found") {
		return nil, errNoLease
	}
	return nil, fmt.Errorf("%s: %s", response.Status, bytes.TrimSpace(text))
}

// grantLease gives a lease that is over in ttl, unless it is kept alive.
func (e *etcd) grantLease(ctx context.Context, ttl time.Duration) (int64, error) {
	var answer struct {
		ID int64 `json:"ID,string"`
	}
	err := e.call(ctx, "lease/grant", object{"TTL": number(int64(ttl / time.Second))}, &answer)
	return answer.ID, err
}

// keepAlive has a lease last its time from now on. It fails with errNoLease where that is over.
func (e *etcd) keepAlive(ctx context.Context, lease int64) error {
	var answer struct {
		Result struct {
			TTL int64 `json:"TTL,string"`
		} `json:"result"`
	}
	err := e.call(ctx, "lease/keepalive", object{"ID": number(lease)}, &answer)
	if err == nil && answer.Result.TTL <= 0 {
		return errNoLease
	}
	return err
}

// revoke ends a lease; its keys are deleted.
func (e *etcd) revoke(ctx context.Context, lease int64) error {
	return e.call(ctx, "lease/revoke", object{"ID": number(lease)}, &struct{}{})
}

// A txn is what came of a transaction: its revision where it was done, else the pairs that were read in its place.
type txn struct {
	isDone   bool
	revision int64
	pairs    []pair
}

// try does all of `then` in one transaction where all of `compare` holds, and reads `otherwise` where it does not.
func (e *etcd) try(ctx context.Context, compare, then []object, otherwise ...string) (txn, error) {
	reads := make([]object, len(otherwise))
	for place, key := range otherwise {
		reads[place] = object{"request_range": object{"key": []byte(key)}}
	}
	var answer struct {
		Header struct {
			Revision int64 `json:"revision,string"`
		} `json:"header"`
		Succeeded bool `json:"succeeded"`
		Responses []struct {
			Range found `json:"response_range"`
		} `json:"responses"`
	}
	err := e.call(ctx, "kv/txn", object{"compare": compare, "success": then, "failure": reads}, &answer)
	tried := txn{isDone: answer.Succeeded, revision: answer.Header.Revision}
	for _, response := range answer.Responses {
		tried.pairs = append(tried.pairs, response.Range.pair())
	}
	if err == nil && !tried.isDone && len(tried.pairs) != len(otherwise) {
		err = fmt.Errorf("etcd: %d answers to %d reads", len(tried.pairs), len(otherwise))
	}
	return tried, err
}

// get reads one key, as it is now.
func (e *etcd) get(ctx context.Context, key string) (pair, error) {
	var answer found
	err := e.call(ctx, "kv/range", object{"key": []byte(key)}, &answer)
	return answer.pair(), err
}

// A page is where a read of all pairs below a prefix goes on: at this key, and as all was at this revision, or is now where that is 0.
type page struct {
	key      string
	revision int64
	isLast   bool
}

// pairsOfPage is how many pairs are read at once.
const pairsOfPage = 500

// read gives the next pairs below a prefix, in the order of their keys, and where to go on.
func (e *etcd) read(ctx context.Context, prefix string, at page, put func(pair)) (page, error) {
	var answer struct {
		Header struct {
			Revision int64 `json:"revision,string"`
		} `json:"header"`
		Kvs  []pair `json:"kvs"`
		More bool   `json:"more"`
	}
	err := e.call(ctx, "kv/range", object{"key": []byte(at.key), "range_end": endOf(prefix), "limit": number(pairsOfPage),
		"revision": number(at.revision)}, &answer)
	if err != nil {
		return at, err
	}
	if at.revision == 0 {
		at.revision = answer.Header.Revision
	}
	for _, found := range answer.Kvs {
		put(found)
		at.key = string(found.Key) + "\x00"
	}
	at.isLast = !answer.More
	return at, nil
}

// endOf is the first key behind all of a prefix.
func endOf(prefix string) []byte {
	last := len(prefix) - 1
	return []byte(prefix[:last] + string(prefix[last]+1))
}

// follow gives each pair that was put below a prefix from a revision on, in their order, until nothing has come for a while
// or the member fails, and then the first revision that is still to come.
func (e *etcd) follow(ctx context.Context, member int, prefix string, from int64, idle time.Duration, put func(pair)) (int64, error) {
	ctx, cancel := context.WithCancel(ctx)
	defer cancel()
	timer := time.AfterFunc(idle, cancel)
	defer timer.Stop()
	body, err := json.Marshal(object{"create_request": object{"key": []byte(prefix), "range_end": endOf(prefix), "start_revision": number(from)}})
	if err != nil {
		return from, err
	}
	response, err := e.post(ctx, e.members[member%len(e.members)], "watch", body)
	if err != nil {
		return from, err
	}
	defer response.Body.Close()
	for decoder := json.NewDecoder(response.Body); ; timer.Reset(idle) {
		var answer struct {
			Result struct {
				Canceled bool   `json:"canceled"`
				Reason   string `json:"cancel_reason"`
				Events   []struct {
					Kv pair `json:"kv"`
				} `json:"events"`
			} `json:"result"`
		}
		if err := decoder.Decode(&answer); err != nil {
			return from, err
		}
		if answer.Result.Canceled {
			return from, fmt.Errorf("etcd: watch: %s", answer.Result.Reason)
		}
		for _, event := range answer.Result.Events {
			put(event.Kv)
			from = event.Kv.ModRevision + 1
		}
	}
}

// What transactions are made of.

func createdAt(key string, revision int64) object {
	return object{"key": []byte(key), "target": "CREATE", "result": "EQUAL", "create_revision": number(revision)}
}

func changedAt(key string, revision int64) object {
	return object{"key": []byte(key), "target": "MOD", "result": "EQUAL", "mod_revision": number(revision)}
}

func putting(key, value string, lease int64) object {
	return object{"request_put": object{"key": []byte(key), "value": []byte(value), "lease": number(lease)}}
}

func number(n int64) string { return strconv.FormatInt(n, 10) }
