package wormweekly

import (
	"context"
	"sync"
)

// A Pool lends recorders to goroutines that come and go. NewPool makes one: the zero Pool lends nothing, and says so.
type Pool struct {
	free  chan *Recorder
	mutex sync.Mutex
	lent  map[*Recorder]bool
}

// NewPool makes a pool of recorders that nobody else uses.
func NewPool(recorders ...*Recorder) *Pool {
	pool := &Pool{free: make(chan *Recorder, len(recorders)), lent: map[*Recorder]bool{}}
	for _, recorder := range recorders {
		if _, is := pool.lent[recorder]; recorder != nil && !is {
			pool.lent[recorder] = false
			pool.free <- recorder
		}
	}
	return pool
}

// Get lends a recorder, and waits for one as long as the context allows.
func (pool *Pool) Get(ctx context.Context) (*Recorder, error) {
	if pool.free == nil {
		return nil, ErrNoPool
	}
	select {
	case recorder := <-pool.free:
		return pool.lend(recorder), nil
	default:
	}
	select {
	case recorder := <-pool.free:
		return pool.lend(recorder), nil
	case <-ctx.Done():
		return nil, ctx.Err()
	}
}

func (pool *Pool) lend(recorder *Recorder) *Recorder {
	pool.mutex.Lock()
	defer pool.mutex.Unlock()
	pool.lent[recorder] = true
	return recorder
}

// Put gives one back. One that was not lent, nil too, is refused, and the pool stays as it is.
func (pool *Pool) Put(recorder *Recorder) error {
	if pool.free == nil {
		return ErrNoPool
	}
	pool.mutex.Lock()
	defer pool.mutex.Unlock()
	if !pool.lent[recorder] {
		return ErrNotLent
	}
	pool.lent[recorder] = false
	pool.free <- recorder
	return nil
}
