// Package metrics counts what the proxy does, and writes it in the text format of Prometheus. No label has a text of a client in it.
package metrics

import (
	"io"
	"runtime"
	"sort"
	"strconv"
	"sync"
	"time"

	"wellapron.example/promql"
	"wellapron.example/promql/cmd/promql-proxy/internal/cache"
	"wellapron.example/promql/cmd/promql-proxy/internal/failure"
)

// The upper bounds of the histogram of durations, in seconds.
func bounds() []float64 {
	return []float64{0.001, 0.005, 0.01, 0.05, 0.1, 0.5, 1, 5, 10, 30, 60, 120}
}

// request is what requests are counted by.
type request struct {
	endpoint, method string
	status           int
}

// response is what responses of the servers behind are counted by.
type response struct {
	server string
	status int
}

// durations is a histogram: how many were within each bound, with those within the bounds before it.
type durations struct {
	within []uint64
	count  uint64
	sum    float64
}

// Metrics are the counters of one proxy.
type Metrics struct {
	mutex     sync.Mutex
	started   time.Time
	inFlight  int
	requests  map[request]uint64
	durations map[string]*durations
	refused   map[failure.Reason]uint64
	upstream  map[response]uint64
	cache     cached
}

// cached is what the cache tells.
type cached struct {
	queries, parts      map[cache.Result]uint64
	entries             int
	bytes               int64
	evictions, failures uint64
}

// New returns metrics that have counted nothing.
func New(now time.Time) *Metrics {
	return &Metrics{
		started:   now,
		requests:  map[request]uint64{},
		durations: map[string]*durations{},
		refused:   map[failure.Reason]uint64{},
		upstream:  map[response]uint64{},
		cache:     cached{queries: map[cache.Result]uint64{}, parts: map[cache.Result]uint64{}},
	}
}

// Begin counts a request that is being answered.
func (m *Metrics) Begin() {
	m.mutex.Lock()
	defer m.mutex.Unlock()
	m.inFlight++
}

// End counts a request that was answered: by which endpoint, and with which status.
func (m *Metrics) End(endpoint, method string, status int, took time.Duration) {
	m.mutex.Lock()
	defer m.mutex.Unlock()
	m.inFlight--
	m.requests[request{endpoint, known(method), status}]++
	found, has := m.durations[endpoint]
	if !has {
		found = &durations{within: make([]uint64, len(bounds()))}
		m.durations[endpoint] = found
	}
	for i, bound := range bounds() {
		if took.Seconds() <= bound {
			found.within[i]++
		}
	}
	found.count++
	found.sum += took.Seconds()
}

// Refuse counts a request that was not passed on, or whose answer was not.
func (m *Metrics) Refuse(reason failure.Reason) {
	m.mutex.Lock()
	defer m.mutex.Unlock()
	m.refused[reason]++
}

// Upstream counts a response of a server behind.
func (m *Metrics) Upstream(server string, status int) {
	m.mutex.Lock()
	defer m.mutex.Unlock()
	m.upstream[response{server, status}]++
}

// CacheQuery counts a range query by what came of it.
func (m *Metrics) CacheQuery(result cache.Result) {
	m.mutex.Lock()
	defer m.mutex.Unlock()
	m.cache.queries[result]++
}

// CachePart counts a part of a range query by what came of it.
func (m *Metrics) CachePart(result cache.Result) {
	m.mutex.Lock()
	defer m.mutex.Unlock()
	m.cache.parts[result]++
}

// CacheSize keeps what the store in memory has, and counts the entries that it dropped.
func (m *Metrics) CacheSize(entries int, bytes int64, dropped int) {
	m.mutex.Lock()
	defer m.mutex.Unlock()
	m.cache.entries, m.cache.bytes = entries, bytes
	m.cache.evictions += uint64(dropped)
}

// CacheFailure counts a call of the store that failed.
func (m *Metrics) CacheFailure() {
	m.mutex.Lock()
	defer m.mutex.Unlock()
	m.cache.failures++
}

// known returns a method that clients may name, and "other" for all that they make up.
func known(method string) string {
	switch method {
	case "GET", "POST", "HEAD", "OPTIONS", "PUT", "DELETE", "PATCH":
		return method
	}
	return "other"
}

// WriteTo writes all metrics.
func (m *Metrics) WriteTo(out io.Writer) (int64, error) {
	m.mutex.Lock()
	defer m.mutex.Unlock()
	var page page
	m.writeProcess(&page)
	m.writeCounters(&page)
	m.writeCache(&page)
	m.writeDurations(&page)
	return page.writeTo(out)
}

func (m *Metrics) writeProcess(page *page) {
	version := labels("version", promql.Version(), "goversion", runtime.Version())
	page.gauge("promql_proxy_build_info", "The version of the library, and that of Go.", version, 1)
	page.gauge("promql_proxy_requests_in_flight", "Requests that are being answered.", "", m.inFlight)
	started := float64(m.started.UnixMilli()) / 1000
	page.gauge("process_start_time_seconds", "When the process began, in seconds since 1970.", "", started)
	page.gauge("go_goroutines", "Goroutines.", "", runtime.NumGoroutine())
	var memory runtime.MemStats
	runtime.ReadMemStats(&memory)
	page.gauge("go_memstats_heap_alloc_bytes", "Bytes of the heap of Go, without those of the library.", "", memory.HeapAlloc)
}

func (m *Metrics) writeCounters(page *page) {
	requests, refused, upstream := map[string]uint64{}, map[string]uint64{}, map[string]uint64{}
	for key, count := range m.requests {
		requests[labels("endpoint", key.endpoint, "method", key.method, "code", strconv.Itoa(key.status))] = count
	}
	for reason, count := range m.refused {
		refused[labels("reason", string(reason))] = count
	}
	for key, count := range m.upstream {
		upstream[labels("server", key.server, "code", strconv.Itoa(key.status))] = count
	}
	page.counter("promql_proxy_requests_total", "Requests that were answered.", requests)
	page.counter("promql_proxy_requests_refused_total", "Requests that got an error of the proxy's own, by its reason.", refused)
	page.counter("promql_proxy_upstream_responses_total", "Responses of the servers behind.", upstream)
}

func (m *Metrics) writeCache(page *page) {
	byResult := func(counts map[cache.Result]uint64) map[string]uint64 {
		made := map[string]uint64{}
		for result, count := range counts {
			made[labels("result", string(result))] = count
		}
		return made
	}
	page.counter("promql_proxy_cache_queries_total", "Range queries, by what came of them.", byResult(m.cache.queries))
	page.counter("promql_proxy_cache_parts_total", "Parts of range queries, by what came of them.", byResult(m.cache.parts))
	page.counter("promql_proxy_cache_evictions_total", "Entries that were dropped for want of room.", map[string]uint64{"": m.cache.evictions})
	page.counter("promql_proxy_cache_store_failures_total", "Calls of the store that failed.", map[string]uint64{"": m.cache.failures})
	page.gauge("promql_proxy_cache_entries", "Entries of the store in memory.", "", m.cache.entries)
	page.gauge("promql_proxy_cache_bytes", "Bytes of the store in memory, with its keys.", "", m.cache.bytes)
}

func (m *Metrics) writeDurations(page *page) {
	const name = "promql_proxy_request_duration_seconds"
	page.head(name, "histogram", "How long a request took, until its answer was written.")
	endpoints := make([]string, 0, len(m.durations))
	for endpoint := range m.durations {
		endpoints = append(endpoints, endpoint)
	}
	sort.Strings(endpoints)
	for _, endpoint := range endpoints {
		found := m.durations[endpoint]
		for i, bound := range bounds() {
			page.sample(name+"_bucket", labels("endpoint", endpoint, "le", strconv.FormatFloat(bound, 'g', -1, 64)), found.within[i])
		}
		page.sample(name+"_bucket", labels("endpoint", endpoint, "le", "+Inf"), found.count)
		page.sample(name+"_sum", labels("endpoint", endpoint), found.sum)
		page.sample(name+"_count", labels("endpoint", endpoint), found.count)
	}
}
