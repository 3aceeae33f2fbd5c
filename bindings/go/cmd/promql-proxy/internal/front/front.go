// Package front is what clients reach: it takes a request apart, makes another one of it for the server behind, and gives the answer back.
package front

import (
	"net/http"
	"time"

	"wellapron.example/promql/cmd/promql-proxy/internal/cache"
	"wellapron.example/promql/cmd/promql-proxy/internal/endpoint"
	"wellapron.example/promql/cmd/promql-proxy/internal/headers"
	"wellapron.example/promql/cmd/promql-proxy/internal/logs"
	"wellapron.example/promql/cmd/promql-proxy/internal/metrics"
	"wellapron.example/promql/cmd/promql-proxy/internal/tenant"
	"wellapron.example/promql/cmd/promql-proxy/internal/upstream"
)

// Front is the handler of the clients' requests.
type Front struct {
	Upstream *upstream.Server
	// Alertmanager is nil where there is none.
	Alertmanager *upstream.Server
	Tenants      tenant.Source
	Headers      headers.Rules
	// RejectConflicts and Shared are those of endpoint.Enforcement.
	RejectConflicts bool
	Shared          []string
	Table           *endpoint.Table
	Metrics         *metrics.Metrics
	Log             *logs.Logger
	// LogQueries says that the log shows queries, selectors and messages about them.
	LogQueries bool
	// MaxBody and MaxAnswer are the most bytes of a request's body, and of an answer that is filtered.
	MaxBody, MaxAnswer int64
	// Places has a place for each request that may be answered at a time. Each call of the library has a thread of the system, of which
	// a process of Go may have 10,000.
	Places chan struct{}
	// Timeout is how long the server behind may take for its whole answer.
	Timeout time.Duration
	// Cache answers range queries in parts. It is nil where none does.
	Cache *cache.Cache
}

func (f *Front) ServeHTTP(w http.ResponseWriter, r *http.Request) {
	w.Header().Set("X-Content-Type-Options", "nosniff")
	// A cache on the way has an answer for each tenant, and for all else that the server behind is told of a client.
	for _, name := range append([]string{f.Tenants.Header}, f.Headers.Passed()...) {
		if name != "" {
			w.Header().Add("Vary", name)
		}
	}
	it := &exchange{Front: f, ResponseWriter: w, request: r, begun: time.Now(), endpoint: "none"}
	f.Metrics.Begin()
	defer it.end()
	if err := it.serve(); err != nil {
		it.refuse(err)
	}
}
