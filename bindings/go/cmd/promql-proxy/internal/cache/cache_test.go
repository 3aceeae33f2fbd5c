package cache

import (
	"context"
	"errors"
	"fmt"
	"net/http"
	"net/url"
	"strings"
	"sync"
	"testing"
	"time"

	"wellapron.example/promql"
)

// server gives answers to range queries, and keeps what it was asked.
type server struct {
	mutex sync.Mutex
	asked []string
	// spoil changes an answer, or returns an error in its place.
	spoil func(parameters url.Values, text string) (string, error)
}

func (s *server) ask(_ context.Context, parameters url.Values) ([]byte, error) {
	s.mutex.Lock()
	defer s.mutex.Unlock()
	s.asked = append(s.asked, parameters.Get("start")+".."+parameters.Get("end"))
	times, has := readGrid(parameters)
	if !has {
		return nil, errors.New("no times")
	}
	text := madeAnswer(times.start, times.end, times.step)
	if s.spoil != nil {
		spoiled, err := s.spoil(parameters, text)
		return []byte(spoiled), err
	}
	return []byte(text), nil
}

// all returns what was asked since the last call.
func (s *server) all() []string {
	s.mutex.Lock()
	defer s.mutex.Unlock()
	asked := s.asked
	s.asked = nil
	return asked
}

// results counts what comes of queries and parts.
type results struct {
	sizes
	mutex          sync.Mutex
	queries, parts map[Result]int
}

func (r *results) CacheQuery(result Result) {
	r.mutex.Lock()
	defer r.mutex.Unlock()
	r.queries[result]++
}

func (r *results) CachePart(result Result) {
	r.mutex.Lock()
	defer r.mutex.Unlock()
	r.parts[result]++
}

// made returns a cache by hours whose clock stands at someTime, and what it counts.
func made() (*Cache, *results) {
	counted := &results{queries: map[Result]int{}, parts: map[Result]int{}}
	return &Cache{
		Store: NewMemory(1<<20, counted), Server: "http://a", Split: time.Hour, Settle: 10 * time.Minute, Keep: 24 * time.Hour,
		MaxAnswer: 1 << 20, Timeout: time.Minute, Places: make(chan struct{}, 8), Counts: counted, Now: func() time.Time { return someTime },
	}, counted
}

// asking returns the parameters of a query over times that count in seconds from someTime.
func asking(query string, start, end int64, more ...string) url.Values {
	at := func(seconds int64) string { return fmt.Sprint(someTime.Unix() + seconds) }
	made := url.Values{"query": {query}, "start": {at(start)}, "end": {at(end)}, "step": {"60"}}
	for i := 0; i+1 < len(more); i += 2 {
		made.Set(more[i], more[i+1])
	}
	return made
}

// check asks a query, and says where the answer is not that of the server, or where that was asked so many times.
func check(t *testing.T, c *Cache, s *server, parameters url.Values, header http.Header, times int) {
	t.Helper()
	text, err := c.Answer(context.Background(), parameters, header, s.ask)
	wanted, _ := readGrid(parameters)
	if err != nil || string(text) != madeAnswer(wanted.start, wanted.end, wanted.step) {
		t.Errorf("%v: %v %.300s", parameters, err, text)
	}
	if asked := s.all(); len(asked) != times {
		t.Errorf("%v: asked %q, and not %d times", parameters, asked, times)
	}
}

// checkWhole asks a query that is to be asked as it is.
func checkWhole(t *testing.T, c *Cache, s *server, parameters url.Values, times int) {
	t.Helper()
	if text, err := c.Answer(context.Background(), parameters, nil, s.ask); !errors.Is(err, ErrWhole) {
		t.Errorf("%v: %v %.300s", parameters, err, text)
	}
	if asked := s.all(); len(asked) != times {
		t.Errorf("%v: asked %q, and not %d times", parameters, asked, times)
	}
}

// someTime is 22:13:20, so a range from 5 hours before to 40 minutes before has five parts, the last of which is cut by its end.
func TestHits(t *testing.T) {
	c, counted := made()
	s := &server{}
	check(t, c, s, asking("sum(a)", -18000, -2400), nil, 5)
	check(t, c, s, asking("sum(a)", -18000, -2400), nil, 0)
	check(t, c, s, asking("sum (a)", -18000, -2400), nil, 0)
	// The parts in the middle are those of other ranges, too, if their times are.
	check(t, c, s, asking("sum(a)", -18060, -2460), nil, 2)
	check(t, c, s, asking("sum(a)", -18001, -2400), nil, 5)
	// The last times are not final: they are asked for each time, as one part. The part before them is longer than the last one above.
	check(t, c, s, asking("sum(a)", -18000, 0), nil, 2)
	check(t, c, s, asking("sum(a)", -18000, 3600), nil, 1)
	if counted.queries[Hit] != 2 || counted.queries[Miss] != 2 || counted.queries[Partial] != 3 || counted.parts[Recent] != 2 {
		t.Errorf("%v %v", counted.queries, counted.parts)
	}
	if counted.parts[Hit] != 5+5+3+4+5 || counted.parts[Miss] != 5+2+5+1 {
		t.Errorf("%v", counted.parts)
	}
}

// What an answer depends on is in the key.
func TestKeys(t *testing.T) {
	c, _ := made()
	s := &server{}
	tenant := func(name string) http.Header { return http.Header{"X-Scope-Orgid": {name}} }
	for _, it := range []struct {
		parameters url.Values
		header     http.Header
	}{
		{asking(`a{tenant="a"}`, -7200, -3600), nil},
		{asking(`a{tenant="b"}`, -7200, -3600), nil},
		{asking(`a{tenant="a"}`, -7200, -3600, "timeout", "1m"), nil},
		{asking(`a{tenant="a"}`, -7200, -3600, "lookback_delta", "1m"), nil},
		{asking(`a{tenant="a"}`, -7200, -3600, "step", "30"), nil},
		{asking(`a{tenant="a"}`, -7190, -3600), nil},
		{asking(`a{tenant="a"}`, -7200, -3600), tenant("a")},
		{asking(`a{tenant="a"}`, -7200, -3600), tenant("b")},
		{asking(`a{tenant="a"}`, -7200, -3600), http.Header{"X-Scope-Orgid": {"a"}, "X-Other": {"b"}}},
		{asking(`a{tenant="a"}`, -7200, -3600), http.Header{"X-Scope-Orgid": {"a", "X-Other", "b"}}},
		{asking(`a{tenant="a"} @ start()`, -7200, -3600), nil},
	} {
		check(t, c, s, it.parameters, it.header, 2)
		check(t, c, s, it.parameters, it.header, 0)
	}
	c.Server = "http://b"
	check(t, c, s, asking(`a{tenant="a"}`, -7200, -3600), nil, 2)
	// Of `@ start()` the time is that of the whole range.
	c.Server = "http://c"
	check(t, c, s, asking("a @ start()", -7200, -3600), nil, 2)
	check(t, c, s, asking("a @ start()", -7260, -3600), nil, 2)
	check(t, c, s, asking(fmt.Sprintf("a @ %d.000", someTime.Unix()-7260), -7200, -3600), nil, 1)
}

func TestPartsArePinned(t *testing.T) {
	c, _ := made()
	sent := make(chan url.Values, 9)
	s := &server{spoil: func(parameters url.Values, text string) (string, error) {
		sent <- parameters
		return text, nil
	}}
	check(t, c, s, asking("a @ end() + b", -7200, -3600, "timeout", "9s"), nil, 2)
	for i := 0; i < 2; i++ {
		part := <-sent
		if part.Get("query") != fmt.Sprintf("a @ %d.000 + b", someTime.Unix()-3600) || part.Get("timeout") != "9s" || part.Get("step") != "60" {
			t.Errorf("%v", part)
		}
	}
}

func TestWhatGoesThrough(t *testing.T) {
	c, counted := made()
	s := &server{}
	some := asking("a", -7200, -3600)
	for _, it := range []struct{ name, value string }{
		{"limit", "5"}, {"limit", ""}, {"stats", "all"}, {"dedup", "true"}, {"lookback_delta", "x"}, {"step", "0"}, {"step", "-60"}, {"step", "x"},
		{"step", "0.0001"}, {"step", "0.1"}, {"start", "NaN"}, {"end", "-Inf"}, {"start", "9999999999"}, {"start", ""}, {"end", "x"},
		{"query", "end()"}, {"query", "a + step()"}, {"query", "a["}, {"query", ""},
		{"query", "a @ 9999999999"}, {"query", "a offset -2h"}, {"query", "a @ end() offset -1h"}, {"query", "max_over_time(a[1d:1m] offset -2h)"},
		{"query", "a offset -1000000w"},
	} {
		parameters := asking("a", -7200, -3600, it.name, it.value)
		checkWhole(t, c, s, parameters, 0)
	}
	some.Set("start", "0")
	some.Set("step", "1000000")
	checkWhole(t, c, s, some, 0)
	some.Set("step", "60")
	checkWhole(t, c, s, some, 0)
	if counted.queries[Through] != 26 || len(counted.parts) != 0 {
		t.Errorf("%v %v", counted.queries, counted.parts)
	}
}

// A part is final once all that it reads is older than the time in which samples come.
func TestFinality(t *testing.T) {
	c, _ := made()
	s := &server{}
	for _, it := range []struct {
		query string
		end   int64
		times [2]int
	}{
		{"a", -600, [2]int{1, 0}},
		{"b offset 10m", 0, [2]int{1, 0}},
		{"b offset -5m", -900, [2]int{1, 0}},
		{"rate(c[5m])", -600, [2]int{1, 0}},
		{"vector(1)", 36000, [2]int{11, 0}},
		{"max_over_time(d[1h:])", -600, [2]int{1, 0}},
		{"e @ 5", 36000, [2]int{11, 0}},
	} {
		parameters := asking(it.query, -600, it.end)
		if it.end < -600 {
			parameters = asking(it.query, it.end, it.end)
		}
		for _, times := range it.times {
			check(t, c, s, parameters, nil, times)
		}
		// A second later it reads what may change.
		if strings.ContainsAny(it.query, "abcd") && it.query != "vector(1)" {
			checkWhole(t, c, s, asking(it.query, it.end+1, it.end+1), 0)
		}
	}
	// A server may have another step for subqueries that have none. So the last read is that of every such step.
	windows, err := promql.Windows("max_over_time(d[1h:])", part{1000, 1000}.eval(1, 0))
	if err != nil || windows[0].Last != time.UnixMilli(1000).UTC() {
		t.Errorf("%v %v", windows, err)
	}
}

// A part is kept for some time, and then asked for again.
func TestTimeOfEntries(t *testing.T) {
	c, _ := made()
	s := &server{}
	check(t, c, s, asking("a", -7200, -3600), nil, 2)
	c.Now = func() time.Time { return someTime.Add(24*time.Hour - time.Second) }
	check(t, c, s, asking("a", -7200, -3600), nil, 0)
	c.Now = func() time.Time { return someTime.Add(24 * time.Hour) }
	check(t, c, s, asking("a", -7200, -3600), nil, 2)
}

// The error of a part is that of the whole, and nothing is kept of that part.
func TestErrors(t *testing.T) {
	failed := errors.New("failed")
	second := seconds((someTime.Unix() - 7200) / 3600 * 3600 * 1000)
	for _, it := range []struct {
		text   string
		err    error
		wanted error
	}{
		{"", failed, failed},
		{"", ErrWhole, ErrWhole},
		{`{"status":"success","data":{"resultType":"matrix","result":[`, nil, ErrWhole},
		{`{"status":"success","data":{"resultType":"matrix","result":[]},"warnings":["x"]}`, nil, ErrWhole},
	} {
		c, _ := made()
		s := &server{}
		s.spoil = func(parameters url.Values, text string) (string, error) {
			if parameters.Get("start") > second {
				return it.text, it.err
			}
			return text, nil
		}
		parameters := asking("a", -7200, -3600)
		if text, err := c.Answer(context.Background(), parameters, nil, s.ask); !errors.Is(err, it.wanted) {
			t.Errorf("%v: %v %s", it, err, text)
		}
		// (another part may be asked for still)
		s = &server{}
		if strings.Contains(it.text, "warnings") {
			// Such a query is asked as it is for a while.
			checkWhole(t, c, s, parameters, 0)
			checkWhole(t, c, s, asking("a", -3600, -3600), 0)
			check(t, c, s, asking("b", -3600, -3600), nil, 1)
			c.Now = func() time.Time { return someTime.Add(markTime) }
		}
		text, err := c.Answer(context.Background(), parameters, nil, s.ask)
		times, _ := readGrid(parameters)
		if err != nil || string(text) != madeAnswer(times.start, times.end, times.step) {
			t.Errorf("%v: %v", it, err)
		}
	}
}

// All parts together are bounded.
func TestLargeAnswers(t *testing.T) {
	c, _ := made()
	s := &server{}
	check(t, c, s, asking("a", -7200, -3600), nil, 2)
	c.MaxAnswer = int64(len(madeAnswer(0, 3600_000, 60_000)) / 3)
	checkWhole(t, c, s, asking("a", -7200, -3600), 0)
	if text, err := c.Answer(context.Background(), asking("b", -7200, -3600), nil, s.ask); !errors.Is(err, ErrWhole) {
		t.Errorf("%v %.100s", err, text)
	}
}

// A range of many parts goes through, and asks nobody anything.
func TestManyParts(t *testing.T) {
	c, _ := made()
	s := &server{}
	hours := int64(3600)
	check(t, c, s, asking("a", -hours*(maxParts-1)-600, -600, "step", "3600"), nil, maxParts)
	checkWhole(t, c, s, asking("a", -hours*maxParts-600, -600, "step", "3600"), 0)
	c.Split = time.Minute
	checkWhole(t, c, s, asking("a", -600000, -600), 0)
}

// A store that has something else under a key has nothing.
func TestStoresThatLie(t *testing.T) {
	c, counted := made()
	s := &server{}
	memory := c.Store
	check(t, c, s, asking("a", -7200, -3600), nil, 2)
	for name, lie := range map[string]func(entry []byte) []byte{
		"cut off": func(entry []byte) []byte { return entry[:len(entry)-1] },
		"longer":  func(entry []byte) []byte { return append(append([]byte{}, entry...), 0) },
		"empty":   func([]byte) []byte { return []byte{} },
		"another": func([]byte) []byte { return writeEntry(Key{}, oneSeries, someTime.Add(time.Hour)) },
		"changed": func(entry []byte) []byte {
			changed := append([]byte{}, entry...)
			changed[len(changed)-2]++
			return changed
		},
	} {
		c.Store = lying{memory, lie}
		hits := counted.parts[Hit]
		check(t, c, s, asking("a", -7200, -3600), nil, 2)
		if counted.parts[Hit] != hits {
			t.Errorf("%s: a hit", name)
		}
	}
	c.Store = memory
	check(t, c, s, asking("a", -7200, -3600), nil, 0)
}

// lying is a store that gives something else.
type lying struct {
	Store
	lie func(entry []byte) []byte
}

func (l lying) Get(key Key) []byte {
	if entry := l.Store.Get(key); entry != nil {
		return l.lie(entry)
	}
	return nil
}

// Many clients at once that ask the same have each part asked for once, and no more parts at a time than there are places.
func TestManyClients(t *testing.T) {
	c, counted := made()
	c.Places = make(chan struct{}, 2)
	s := &server{}
	var mutex sync.Mutex
	running, most := 0, 0
	ask := func(ctx context.Context, parameters url.Values) ([]byte, error) {
		mutex.Lock()
		running++
		if running > most {
			most = running
		}
		mutex.Unlock()
		time.Sleep(5 * time.Millisecond)
		text, err := s.ask(ctx, parameters)
		mutex.Lock()
		running--
		mutex.Unlock()
		return text, err
	}
	var all sync.WaitGroup
	parameters := asking("a", -36000, -3600)
	times, _ := readGrid(parameters)
	wanted := madeAnswer(times.start, times.end, times.step)
	for i := 0; i < 100; i++ {
		all.Add(1)
		go func() {
			defer all.Done()
			if text, err := c.Answer(context.Background(), parameters, nil, ask); err != nil || string(text) != wanted {
				t.Errorf("%v", err)
			}
		}()
	}
	all.Wait()
	if asked := s.all(); len(asked) != 10 || most > 2 || counted.parts[Miss] != 10 || counted.parts[Hit]+counted.parts[Shared] != 990 {
		t.Errorf("%d were asked, %d at a time: %v", len(asked), most, counted.parts)
	}
}

// A client that leaves ends what no one else asks, and waits for nothing.
func TestSlowServers(t *testing.T) {
	c, _ := made()
	ended := make(chan struct{}, 9)
	slow := func(ctx context.Context, _ url.Values) ([]byte, error) {
		<-ctx.Done()
		ended <- struct{}{}
		return nil, ctx.Err()
	}
	for _, end := range []int64{-3600, 0} {
		ctx, cancel := context.WithTimeout(context.Background(), 10*time.Millisecond)
		if _, err := c.Answer(ctx, asking("a", -10800, end), nil, slow); !errors.Is(err, context.DeadlineExceeded) {
			t.Error(err)
		}
		cancel()
		<-ended
	}
	s := &server{}
	check(t, c, s, asking("a", -10800, -3600), nil, 3)
}

func TestFaults(t *testing.T) {
	c, _ := made()
	for _, end := range []int64{-3600, 0} {
		_, err := c.Answer(context.Background(), asking("a", -10800, end), nil, func(context.Context, url.Values) ([]byte, error) { panic("x") })
		if err == nil || errors.Is(err, ErrWhole) {
			t.Errorf("%v", err)
		}
	}
}

// BenchmarkHits answers a query of five series over five days, all of which are kept, by hours.
func BenchmarkHits(b *testing.B) {
	c, _ := made()
	c.MaxAnswer, c.Store = 1<<30, NewMemory(1<<30, &sizes{})
	s := &server{}
	parameters := asking("a", -432000, -3600)
	for i := 0; i < b.N+1; i++ {
		if i == 1 {
			b.ResetTimer()
		}
		text, err := c.Answer(context.Background(), parameters, nil, s.ask)
		if err != nil {
			b.Fatal(err)
		}
		b.SetBytes(int64(len(text)))
	}
}
