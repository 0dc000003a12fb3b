package truetime

import (
	"context"
	"errors"
	"sync"
)

// ErrNotPending is the error of a PendingTable where no commit with this timestamp is pending, or the one that is to be released
// is not written.
var ErrNotPending = errors.New("truetime: no such commit is pending, or it is not written")

// A PendingTable has the commits of one stamper from their timestamps until they are written, so that snapshots hold all that they
// have to. A database begins each commit by Begin, writes it under its timestamp, says so by Written, and tells nobody before
// Release. A snapshot at a time that MakeReadable or Watermark gave holds every commit with a timestamp up to it, and no later one
// gets such a timestamp. Any number of goroutines may use one table; no timestamp of the stamper may be taken past it.
type PendingTable struct {
	stamper *Stamper

	mutex     sync.Mutex
	unwritten []int64       // they rise
	changed   chan struct{} // closed when one of them is ended
}

// NewPendingTable gives a table of no commits.
func NewPendingTable(stamper *Stamper) *PendingTable {
	return &PendingTable{stamper: stamper, changed: make(chan struct{})}
}

// Begin begins a commit: its timestamp, as Stamper.Stamp gives it, with its errors. It has to be ended by Written or GiveUp.
func (p *PendingTable) Begin(floor int64) (int64, error) {
	p.mutex.Lock()
	defer p.mutex.Unlock()
	given, err := p.stamper.Stamp(floor)
	if err == nil {
		p.unwritten = append(p.unwritten, given.Timestamp)
	}
	return given.Timestamp, err
}

// Written says that a commit is written: who reads under its timestamp sees it from now on. It fails with ErrNotPending.
func (p *PendingTable) Written(stamp int64) error { return p.end(stamp) }

// GiveUp says that a commit is never written. It fails with ErrNotPending.
func (p *PendingTable) GiveUp(stamp int64) error { return p.end(stamp) }

func (p *PendingTable) end(stamp int64) error {
	p.mutex.Lock()
	defer p.mutex.Unlock()
	place := p.place(stamp)
	if place < 0 {
		return ErrNotPending
	}
	p.unwritten = append(p.unwritten[:place], p.unwritten[place+1:]...)
	close(p.changed)
	p.changed = make(chan struct{})
	return nil
}

func (p *PendingTable) place(stamp int64) int {
	for place, pending := range p.unwritten {
		if pending == stamp {
			return place
		}
	}
	return -1
}

// Release waits until the timestamp of a commit that is written has surely passed: only then may anybody be told. As
// Stamper.WaitPast, and it fails with ErrNotPending where the commit is not written.
func (p *PendingTable) Release(ctx context.Context, stamp int64) (bool, error) {
	p.mutex.Lock()
	isPending := p.place(stamp) >= 0
	p.mutex.Unlock()
	if isPending {
		return false, ErrNotPending
	}
	return p.stamper.WaitPast(ctx, stamp)
}

// Watermark gives the greatest time that has surely passed and up to which all commits are written, and false where there is none.
// It refuses as Client.Now.
func (p *PendingTable) Watermark() (int64, bool, error) {
	p.mutex.Lock()
	defer p.mutex.Unlock()
	// Whoever begins a commit behind this reading gets a timestamp that is no less than its earliest.
	now, err := p.stamper.client.Now()
	if err != nil {
		return 0, false, err
	}
	bound := now.Earliest
	if len(p.unwritten) > 0 && p.unwritten[0] < bound {
		bound = p.unwritten[0]
	}
	if bound == 0 {
		return 0, false, nil
	}
	return bound - 1, true, nil
}

// MakeReadable waits until a time has surely passed and all commits up to it are written, and says true, or until the context ends,
// and says false, with the context's error. It refuses as Client.Now.
func (p *PendingTable) MakeReadable(ctx context.Context, t int64) (bool, error) {
	if isPast, err := p.stamper.WaitPast(ctx, t); !isPast {
		return false, err
	}
	for {
		p.mutex.Lock()
		isWritten, changed := len(p.unwritten) == 0 || p.unwritten[0] > t, p.changed
		p.mutex.Unlock()
		if isWritten {
			return true, nil
		}
		select {
		case <-changed:
		case <-ctx.Done():
			return false, ctx.Err()
		}
	}
}
