package cache

import (
	"context"
	"fmt"
	"net/url"
	"sync"
	"sync/atomic"
)

// perQuery is how many parts of one query are asked for at a time.
const perQuery = 4

// gathering is the answers to the parts of one query, as they come.
type gathering struct {
	*Cache
	*query
	ask     Ask
	answers []matrix
	size    int64
	// The first error, and what ends the questions of all other parts.
	once   sync.Once
	err    error
	cancel context.CancelFunc
}

// answers returns the answers to the parts of a query: those that are kept, and the others of the server. All that is not final is one part.
func (c *Cache) answers(ctx context.Context, asked *query, ask Ask) ([]matrix, error) {
	if asked.finals < len(asked.parts) {
		asked.parts = append(asked.parts[:asked.finals:asked.finals], part{asked.parts[asked.finals].first, asked.parts[len(asked.parts)-1].last})
	}
	ctx, cancel := context.WithCancel(ctx)
	defer cancel()
	all := &gathering{Cache: c, query: asked, ask: ask, answers: make([]matrix, len(asked.parts)), cancel: cancel}
	missing := all.fromStore()
	work := make(chan int, len(missing))
	for _, i := range missing {
		work <- i
	}
	close(work)
	var workers sync.WaitGroup
	for n := 0; n < perQuery && n < len(missing); n++ {
		workers.Add(1)
		go func() {
			defer workers.Done()
			for i := range work {
				all.fromServer(ctx, i)
			}
		}()
	}
	workers.Wait()
	return all.answers, all.err
}

// fromStore takes the parts that are kept, and returns which are not.
func (g *gathering) fromStore() []int {
	var missing []int
	for i, it := range g.parts {
		if i < g.finals {
			if kept, err := g.get(g.key(it)); err == nil {
				g.hits++
				g.Counts.CachePart(Hit)
				g.put(i, kept)
				continue
			}
		}
		missing = append(missing, i)
	}
	return missing
}

// put takes the answer to a part, unless all of them together are too large.
func (g *gathering) put(i int, answer matrix) {
	if atomic.AddInt64(&g.size, answer.size()) > g.MaxAnswer {
		g.fail(ErrWhole)
		return
	}
	g.answers[i] = answer
}

// fail keeps the first error, and ends what is being asked.
func (g *gathering) fail(err error) {
	g.once.Do(func() {
		g.err = err
		g.cancel()
	})
}

// fromServer takes a part that was not kept.
func (g *gathering) fromServer(ctx context.Context, i int) {
	if ctx.Err() != nil {
		g.fail(ctx.Err())
		return
	}
	answer, err := g.answer(ctx, i)
	if err != nil {
		g.fail(err)
		return
	}
	g.put(i, answer)
}

// answer returns the answer to a part, of the server or of another who asks for it.
func (g *gathering) answer(ctx context.Context, i int) (matrix, error) {
	if i >= g.finals {
		g.Counts.CachePart(Recent)
		return safely(ctx, func(ctx context.Context) (matrix, error) { return g.part(ctx, i) })
	}
	answer, shared, err := g.flights.do(ctx, g.key(g.parts[i]), g.Timeout, func(ctx context.Context) (matrix, error) { return g.final(ctx, i) })
	if shared {
		g.Counts.CachePart(Shared)
	}
	return answer, err
}

// final asks for a part that is final, and keeps it.
func (g *gathering) final(ctx context.Context, i int) (matrix, error) {
	key := g.key(g.parts[i])
	// (another may have asked for it and be done since this one looked)
	if kept, err := g.get(key); err == nil {
		g.Counts.CachePart(Hit)
		return kept, nil
	}
	g.Counts.CachePart(Miss)
	answer, err := g.part(ctx, i)
	if err == nil {
		g.set(key, answer, g.Keep)
	}
	return answer, err
}

// part asks for a part.
func (g *gathering) part(ctx context.Context, i int) (matrix, error) {
	select {
	case g.Places <- struct{}{}:
		defer func() { <-g.Places }()
	case <-ctx.Done():
		return nil, ctx.Err()
	}
	sent := url.Values{}
	for name, values := range g.parameters {
		sent[name] = values
	}
	sent.Set("query", g.line)
	sent.Set("start", seconds(g.parts[i].first))
	sent.Set("end", seconds(g.parts[i].last))
	text, err := g.ask(ctx, sent)
	if err != nil {
		return nil, err
	}
	return readAnswer(text)
}

// safely returns what a call returns. A fault of the proxy itself ends this call, and no other.
func safely(ctx context.Context, call func(ctx context.Context) (matrix, error)) (answer matrix, err error) {
	defer func() {
		if fault := recover(); fault != nil {
			answer, err = nil, fmt.Errorf("panic of type %T", fault)
		}
	}()
	return call(ctx)
}
