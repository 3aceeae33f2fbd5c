package cache

import (
	"context"
	"sync"
	"time"
)

// flights let those who ask one part at the same time have one answer.
type flights struct {
	mutex   sync.Mutex
	running map[Key]*flight
}

// flight is a part that is being asked for.
type flight struct {
	waiting int
	cancel  context.CancelFunc
	done    chan struct{}
	// What came of it, once it is done.
	answer matrix
	err    error
}

// do returns what ask returns, by its own call or by that of another for the same key, and whether it was another's. The call goes on where
// this context ends, as long as someone waits for it.
func (f *flights) do(ctx context.Context, key Key, timeout time.Duration, ask func(ctx context.Context) (matrix, error)) (answer matrix, shared bool, err error) {
	f.mutex.Lock()
	joined, shared := f.running[key]
	if !shared {
		joined = f.start(key, timeout, ask)
	}
	joined.waiting++
	f.mutex.Unlock()
	select {
	case <-joined.done:
		return joined.answer, shared, joined.err
	case <-ctx.Done():
		f.leave(key, joined)
		return nil, shared, ctx.Err()
	}
}

// start begins a call. The mutex is held.
func (f *flights) start(key Key, timeout time.Duration, ask func(ctx context.Context) (matrix, error)) *flight {
	ctx, cancel := context.WithTimeout(context.Background(), timeout)
	made := &flight{cancel: cancel, done: make(chan struct{})}
	if f.running == nil {
		f.running = map[Key]*flight{}
	}
	f.running[key] = made
	go func() {
		defer cancel()
		defer close(made.done)
		defer f.forget(key, made)
		made.answer, made.err = safely(ctx, ask)
	}()
	return made
}

// leave is called by one who waits no longer. The last one ends the call.
func (f *flights) leave(key Key, left *flight) {
	f.mutex.Lock()
	defer f.mutex.Unlock()
	left.waiting--
	if left.waiting > 0 {
		return
	}
	left.cancel()
	if f.running[key] == left {
		delete(f.running, key)
	}
}

func (f *flights) forget(key Key, done *flight) {
	f.mutex.Lock()
	defer f.mutex.Unlock()
	if f.running[key] == done {
		delete(f.running, key)
	}
}
