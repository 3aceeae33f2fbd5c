package cache

import (
	"context"
	"errors"
	"strings"
	"sync"
	"sync/atomic"
	"testing"
	"time"
)

var oneSeries = matrix{{metric: []byte(`{}`), values: []byte(`[1,"1"]`)}}

// waiters waits until so many wait for a key.
func waiters(t *testing.T, f *flights, key Key, number int) {
	t.Helper()
	for i := 0; i < 1000; i++ {
		f.mutex.Lock()
		found := f.running[key]
		is := found != nil && found.waiting == number
		f.mutex.Unlock()
		if is {
			return
		}
		time.Sleep(time.Millisecond)
	}
	t.Fatalf("there are no %d that wait", number)
}

func TestManyAskOnce(t *testing.T) {
	var f flights
	var calls, shared int32
	release := make(chan struct{})
	var all sync.WaitGroup
	for i := 0; i < 50; i++ {
		all.Add(1)
		go func() {
			defer all.Done()
			answer, is, err := f.do(context.Background(), Key{1}, time.Minute, func(context.Context) (matrix, error) {
				atomic.AddInt32(&calls, 1)
				<-release
				return oneSeries, nil
			})
			if is {
				atomic.AddInt32(&shared, 1)
			}
			if err != nil || len(answer) != 1 {
				t.Errorf("%v %v", answer, err)
			}
		}()
	}
	waiters(t, &f, Key{1}, 50)
	close(release)
	all.Wait()
	if calls != 1 || shared != 49 || len(f.running) != 0 {
		t.Errorf("%d calls, %d shared, %d running", calls, shared, len(f.running))
	}
}

func TestClientsThatLeave(t *testing.T) {
	var f flights
	ended := make(chan error, 1)
	release := make(chan struct{})
	ask := func(ctx context.Context) (matrix, error) {
		select {
		case <-release:
			return oneSeries, nil
		case <-ctx.Done():
			ended <- ctx.Err()
			return nil, ctx.Err()
		}
	}
	contexts, cancels, results := make([]context.Context, 2), make([]context.CancelFunc, 2), make(chan error, 2)
	for i := range contexts {
		contexts[i], cancels[i] = context.WithCancel(context.Background())
		go func(ctx context.Context) {
			_, _, err := f.do(ctx, Key{1}, time.Minute, ask)
			results <- err
		}(contexts[i])
		waiters(t, &f, Key{1}, i+1)
	}
	// The first leaves, and the question goes on.
	cancels[0]()
	if err := <-results; !errors.Is(err, context.Canceled) {
		t.Error(err)
	}
	waiters(t, &f, Key{1}, 1)
	// The last leaves, and the question ends. The next one asks anew.
	cancels[1]()
	if err := <-results; !errors.Is(err, context.Canceled) {
		t.Error(err)
	}
	if err := <-ended; !errors.Is(err, context.Canceled) {
		t.Error(err)
	}
	close(release)
	if answer, shared, err := f.do(context.Background(), Key{1}, time.Minute, ask); err != nil || shared || len(answer) != 1 {
		t.Errorf("%v %t %v", answer, shared, err)
	}
}

func TestFlightsThatEnd(t *testing.T) {
	var f flights
	_, _, err := f.do(context.Background(), Key{1}, time.Millisecond, func(ctx context.Context) (matrix, error) {
		<-ctx.Done()
		return nil, ctx.Err()
	})
	if !errors.Is(err, context.DeadlineExceeded) {
		t.Error(err)
	}
	_, _, err = f.do(context.Background(), Key{1}, time.Minute, func(context.Context) (matrix, error) { panic("tenant-b") })
	if err == nil || strings.Contains(err.Error(), "tenant-b") {
		t.Error(err)
	}
}
