package truetime

import (
	"context"
	"sync"
)

// A Pool has sessions with one machine for many goroutines, each of which has one to itself while it commits. A session is
// dialled when none is idle, and handed out again only where its connection has not ended, no commit of it is pending and no
// reply is owed. One that comes back otherwise is closed: nobody else gets its commit.
type Pool struct {
	dial   func(ctx context.Context) (*Session, error)
	places chan struct{} // one for each session that is out

	mutex  sync.Mutex
	idle   []*Session
	closed bool
}

// NewPool gives a pool of at most size sessions, at least one. dial dials one, and sets its lease where commits have one. It is
// not called so far.
func NewPool(size int, dial func(ctx context.Context) (*Session, error)) *Pool {
	if size < 1 {
		panic("truetime: a pool has one session at least")
	}
	return &Pool{dial: dial, places: make(chan struct{}, size)}
}

// Get gives a session that nobody else has: the idle one that was used last, or a new one. It waits while as many are out as
// there may be. It fails with the context's error, with ErrPoolClosed, and as dial. Put it back in the end.
func (p *Pool) Get(ctx context.Context) (*Session, error) {
	if err := ctx.Err(); err != nil {
		return nil, err
	}
	select {
	case p.places <- struct{}{}:
	case <-ctx.Done():
		return nil, ctx.Err()
	}
	session, err := p.take(ctx)
	if err != nil {
		<-p.places
		return nil, err
	}
	return session, nil
}

func (p *Pool) take(ctx context.Context) (*Session, error) {
	for {
		session, err := p.last()
		switch {
		case err != nil:
			return nil, err
		case session == nil:
			return p.dial(ctx)
		case session.isIdle():
			return session, nil
		}
		session.Close()
	}
}

// last takes the idle session that was used last; nil where none is.
func (p *Pool) last() (*Session, error) {
	p.mutex.Lock()
	defer p.mutex.Unlock()
	if p.closed {
		return nil, ErrPoolClosed
	}
	if len(p.idle) == 0 {
		return nil, nil
	}
	session := p.idle[len(p.idle)-1]
	p.idle = p.idle[:len(p.idle)-1]
	return session, nil
}

// Put gives a session of Get back, once. A commit that is pending then is never known as released. It panics where none is out.
func (p *Pool) Put(session *Session) {
	if len(p.places) == 0 {
		panic("truetime: a session is put back, and none is out")
	}
	if !p.keep(session) {
		session.Close()
	}
	<-p.places
}

func (p *Pool) keep(session *Session) bool {
	if !session.isIdle() {
		return false
	}
	p.mutex.Lock()
	defer p.mutex.Unlock()
	if !p.closed {
		p.idle = append(p.idle, session)
	}
	return !p.closed
}

// Commit commits by a session of the pool, with the errors of Get and of Session.Commit.
func (p *Pool) Commit(ctx context.Context, floor int64) (stamp int64, err error) {
	session, err := p.Get(ctx)
	if err != nil {
		return 0, err
	}
	defer p.Put(session)
	return session.Commit(ctx, floor)
}

// Close closes the sessions that are idle, and each other one when it is put back.
func (p *Pool) Close() error {
	p.mutex.Lock()
	idle := p.idle
	p.idle, p.closed = nil, true
	p.mutex.Unlock()
	for _, session := range idle {
		session.Close()
	}
	return nil
}
