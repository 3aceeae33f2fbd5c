package metrics

import (
	"strings"
	"testing"
	"time"

	"wellapron.example/promql/cmd/promql-proxy/internal/cache"
	"wellapron.example/promql/cmd/promql-proxy/internal/failure"
)

const wantedPage = `# HELP promql_proxy_requests_total Requests that were answered.
# TYPE promql_proxy_requests_total counter
promql_proxy_requests_total{endpoint="none",method="other",code="404"} 1
promql_proxy_requests_total{endpoint="query",method="GET",code="200"} 2
promql_proxy_requests_total{endpoint="query",method="POST",code="400"} 1
# HELP promql_proxy_requests_refused_total Requests that got an error of the proxy's own, by its reason.
# TYPE promql_proxy_requests_refused_total counter
promql_proxy_requests_refused_total{reason="path"} 1
promql_proxy_requests_refused_total{reason="query"} 1
# HELP promql_proxy_upstream_responses_total Responses of the servers behind.
# TYPE promql_proxy_upstream_responses_total counter
promql_proxy_upstream_responses_total{server="alertmanager",code="200"} 1
promql_proxy_upstream_responses_total{server="prometheus",code="200"} 1
# HELP promql_proxy_cache_queries_total Range queries, by what came of them.
# TYPE promql_proxy_cache_queries_total counter
promql_proxy_cache_queries_total{result="partial"} 1
# HELP promql_proxy_cache_parts_total Parts of range queries, by what came of them.
# TYPE promql_proxy_cache_parts_total counter
promql_proxy_cache_parts_total{result="hit"} 2
promql_proxy_cache_parts_total{result="miss"} 1
# HELP promql_proxy_cache_evictions_total Entries that were dropped for want of room.
# TYPE promql_proxy_cache_evictions_total counter
promql_proxy_cache_evictions_total 3
# HELP promql_proxy_cache_store_failures_total Calls of the store that failed.
# TYPE promql_proxy_cache_store_failures_total counter
promql_proxy_cache_store_failures_total 1
# HELP promql_proxy_cache_entries Entries of the store in memory.
# TYPE promql_proxy_cache_entries gauge
promql_proxy_cache_entries 4
# HELP promql_proxy_cache_bytes Bytes of the store in memory, with its keys.
# TYPE promql_proxy_cache_bytes gauge
promql_proxy_cache_bytes 2048
# HELP promql_proxy_request_duration_seconds How long a request took, until its answer was written.
# TYPE promql_proxy_request_duration_seconds histogram
promql_proxy_request_duration_seconds_bucket{endpoint="none",le="0.001"} 0
promql_proxy_request_duration_seconds_bucket{endpoint="none",le="0.005"} 0
promql_proxy_request_duration_seconds_bucket{endpoint="none",le="0.01"} 0
promql_proxy_request_duration_seconds_bucket{endpoint="none",le="0.05"} 0
promql_proxy_request_duration_seconds_bucket{endpoint="none",le="0.1"} 0
promql_proxy_request_duration_seconds_bucket{endpoint="none",le="0.5"} 0
promql_proxy_request_duration_seconds_bucket{endpoint="none",le="1"} 0
promql_proxy_request_duration_seconds_bucket{endpoint="none",le="5"} 0
promql_proxy_request_duration_seconds_bucket{endpoint="none",le="10"} 0
promql_proxy_request_duration_seconds_bucket{endpoint="none",le="30"} 0
promql_proxy_request_duration_seconds_bucket{endpoint="none",le="60"} 0
promql_proxy_request_duration_seconds_bucket{endpoint="none",le="120"} 0
promql_proxy_request_duration_seconds_bucket{endpoint="none",le="+Inf"} 1
promql_proxy_request_duration_seconds_sum{endpoint="none"} 240
promql_proxy_request_duration_seconds_count{endpoint="none"} 1
promql_proxy_request_duration_seconds_bucket{endpoint="query",le="0.001"} 1
promql_proxy_request_duration_seconds_bucket{endpoint="query",le="0.005"} 1
promql_proxy_request_duration_seconds_bucket{endpoint="query",le="0.01"} 1
promql_proxy_request_duration_seconds_bucket{endpoint="query",le="0.05"} 1
promql_proxy_request_duration_seconds_bucket{endpoint="query",le="0.1"} 1
promql_proxy_request_duration_seconds_bucket{endpoint="query",le="0.5"} 2
promql_proxy_request_duration_seconds_bucket{endpoint="query",le="1"} 2
promql_proxy_request_duration_seconds_bucket{endpoint="query",le="5"} 3
promql_proxy_request_duration_seconds_bucket{endpoint="query",le="10"} 3
promql_proxy_request_duration_seconds_bucket{endpoint="query",le="30"} 3
promql_proxy_request_duration_seconds_bucket{endpoint="query",le="60"} 3
promql_proxy_request_duration_seconds_bucket{endpoint="query",le="120"} 3
promql_proxy_request_duration_seconds_bucket{endpoint="query",le="+Inf"} 3
promql_proxy_request_duration_seconds_sum{endpoint="query"} 2.5
promql_proxy_request_duration_seconds_count{endpoint="query"} 3
`

func TestPage(t *testing.T) {
	counted := New(time.UnixMilli(1700000000250))
	for i := 0; i < 5; i++ {
		counted.Begin()
	}
	counted.End("query", "GET", 200, 500*time.Millisecond)
	counted.End("query", "GET", 200, 2*time.Second)
	counted.End("query", "POST", 400, 0)
	counted.End("none", "X\"\n", 404, 4*time.Minute)
	counted.Refuse(failure.Query)
	counted.Refuse(failure.Path)
	counted.Upstream("prometheus", 200)
	counted.Upstream("alertmanager", 200)
	counted.CacheQuery(cache.Partial)
	counted.CachePart(cache.Hit)
	counted.CachePart(cache.Hit)
	counted.CachePart(cache.Miss)
	counted.CacheSize(5, 4096, 1)
	counted.CacheSize(4, 2048, 2)
	counted.CacheFailure()
	var out strings.Builder
	if written, err := counted.WriteTo(&out); err != nil || written != int64(out.Len()) {
		t.Errorf("%d %v", written, err)
	}
	process, counters, _ := strings.Cut(out.String(), "# HELP promql_proxy_requests_total")
	if "# HELP promql_proxy_requests_total"+counters != wantedPage {
		t.Error(out.String())
	}
	for _, wanted := range []string{"\npromql_proxy_requests_in_flight 1\n", "\nprocess_start_time_seconds 1.70000000025e+09\n", "\ngo_goroutines "} {
		if !strings.Contains(process, wanted) {
			t.Errorf("there is no %q in %s", wanted, process)
		}
	}
}
