// Package cache answers range queries in parts, and keeps the answers to those parts that are final (docs/guide/cache.md of the repository).
// When a query reads, and how it is written so that it can be asked in parts, the library says.
package cache

import (
	"context"
	"crypto/sha256"
	"encoding/binary"
	"errors"
	"net/http"
	"net/url"
	"sort"
	"time"

	"wellapron.example/promql"
)

// markTime is how long a query whose answers are not kept is asked as it is, and not in parts first.
const markTime = 10 * time.Minute

// What the answer to a query may fail with, beside what ask does.
var (
	// ErrWhole says that a query is to be asked as it is.
	ErrWhole = errors.New("the query is not answered in parts")
	// ErrNotKept says that the answer to a part is not kept: it has a warning, another form than that of Prometheus, or too many bytes.
	ErrNotKept = errors.New("the answer is no matrix alone, as Prometheus writes it")
)

// Cache answers range queries. All its fields are set before the first call.
type Cache struct {
	Store Store
	// Server says which server is asked, and as whom.
	Server string
	// Split is the length at whose multiples a range is cut, in whole milliseconds.
	Split time.Duration
	// Settle is how long after a time samples of it may come.
	Settle time.Duration
	// Keep is how long a part is kept at most.
	Keep time.Duration
	// MaxAnswer is how many bytes the answer to a query may have, in all its parts.
	MaxAnswer int64
	// Timeout is how long a server may take for a part.
	Timeout time.Duration
	// Places has a place for each part that may be asked for at a time.
	Places chan struct{}
	Counts Counts
	// Now is the clock.
	Now func() time.Time

	flights flights
}

// Result says what came of a query or a part of one.
type Result string

// Of a query: whether all of it was kept, some of it or none, whether it went through as it is, or whether a part of it failed. Of a part:
// whether it was kept, was asked for, or came of the question of another; the last times of a query, whose answers are not final, are one
// recent part.
const (
	Hit     Result = "hit"
	Partial Result = "partial"
	Miss    Result = "miss"
	Through Result = "through"
	Failed  Result = "failed"
	Shared  Result = "shared"
	Recent  Result = "recent"
)

// Counts is told what comes of queries and parts.
type Counts interface {
	CacheQuery(Result)
	CachePart(Result)
}

// Ask asks the server a range query with these parameters, and returns its answer, which is a success.
type Ask func(ctx context.Context, parameters url.Values) ([]byte, error)

// query is a range query that is answered in parts.
type query struct {
	// line is pinned, so it means the same over each part.
	line       string
	parameters url.Values
	grid       grid
	lookback   int64
	// base is a digest of all that the answer to a part depends on, but for its times.
	base Key
	// The parts that are final come before those that are not.
	parts  []part
	finals int
	// hits is how many parts were kept.
	hits int
}

// result says what came of the query.
func (q *query) result() Result {
	switch q.hits {
	case 0:
		return Miss
	case len(q.parts):
		return Hit
	}
	return Partial
}

// Answer returns the answer to a range query with these parameters, of a server that is told these headers. The error is ErrWhole where the
// query is to be asked as it is, or one of ask, or that of the context.
func (c *Cache) Answer(ctx context.Context, parameters url.Values, header http.Header, ask Ask) ([]byte, error) {
	asked := c.plan(parameters, header)
	if asked == nil {
		c.Counts.CacheQuery(Through)
		return nil, ErrWhole
	}
	answers, err := c.answers(ctx, asked, ask)
	if errors.Is(err, ErrNotKept) {
		c.set(asked.key(mark), nil, markTime)
		err = ErrWhole
	}
	switch {
	case errors.Is(err, ErrWhole):
		c.Counts.CacheQuery(Through)
		return nil, err
	case err != nil:
		c.Counts.CacheQuery(Failed)
		return nil, err
	}
	c.Counts.CacheQuery(asked.result())
	return join(answers).write(), nil
}

// plan returns how a query is answered in parts, or nil where it is not.
func (c *Cache) plan(parameters url.Values, header http.Header) *query {
	times, has := readGrid(parameters)
	if !has || !areKnown(parameters) {
		return nil
	}
	asked := &query{parameters: parameters, grid: times, parts: times.split(c.Split.Milliseconds())}
	if text := parameters.Get("lookback_delta"); text != "" {
		var is bool
		if asked.lookback, is = readDuration(text); !is {
			return nil
		}
	}
	var err error
	if asked.line, err = promql.Pin(parameters.Get("query"), time.UnixMilli(times.start), time.UnixMilli(times.end)); err != nil {
		return nil
	}
	if asked.finals = asked.countFinals(c.Now().Add(-c.Settle)); asked.finals == 0 {
		return nil
	}
	asked.base = c.digest(asked, header)
	if _, err := c.get(asked.key(mark)); err == nil {
		return nil
	}
	return asked
}

// areKnown says whether the answer to a query with these parameters is that to its parts. With a limit or with statistics it is not, and of
// a parameter that is not known nobody can say.
func areKnown(parameters url.Values) bool {
	for name, values := range parameters {
		switch name {
		case "query", "start", "end", "step", "timeout", "lookback_delta":
		default:
			return len(values) == 0
		}
	}
	return true
}

// countFinals returns how many parts read nothing after a time. The later a part is, the later is what it reads, so those are the first ones.
// There are none where the library does not say what a part reads.
func (q *query) countFinals(known time.Time) int {
	var failed error
	finals := sort.Search(len(q.parts), func(i int) bool {
		windows, err := promql.Windows(q.line, q.parts[i].eval(q.grid.step, q.lookback))
		if err != nil {
			failed = err
		}
		for _, it := range windows {
			if !it.Never && it.Last.After(known) {
				return true
			}
		}
		return err != nil
	})
	if failed != nil {
		return 0
	}
	return finals
}

// digest is that of the server, of what it is told beside the times, and of the query.
func (c *Cache) digest(asked *query, header http.Header) Key {
	words := []string{c.Server, asked.line, seconds(asked.grid.step), asked.parameters.Get("timeout"), asked.parameters.Get("lookback_delta")}
	names := make([]string, 0, len(header))
	for name := range header {
		names = append(names, name)
	}
	sort.Strings(names)
	for _, name := range names {
		words = append(append(words, name), header[name]...)
	}
	var text []byte
	for _, word := range words {
		text = append(binary.AppendUvarint(text, uint64(len(word))), word...)
	}
	return sha256.Sum256(text)
}

// mark is no part of a query: it ends before it begins. What is kept for it says that the answers to the query are not.
var mark = part{first: 1, last: 0}

// key returns the key of a part.
func (q *query) key(of part) Key {
	text := append([]byte{}, q.base[:]...)
	text = binary.BigEndian.AppendUint64(text, uint64(of.first))
	text = binary.BigEndian.AppendUint64(text, uint64(of.last))
	return sha256.Sum256(text)
}

// get returns what is kept for a key. A store that has something else has nothing.
func (c *Cache) get(key Key) (matrix, error) {
	return readEntry(key, c.Store.Get(key), c.Now())
}

func (c *Cache) set(key Key, answer matrix, atMost time.Duration) {
	c.Store.Set(key, writeEntry(key, answer, c.Now().Add(atMost)), atMost)
}
