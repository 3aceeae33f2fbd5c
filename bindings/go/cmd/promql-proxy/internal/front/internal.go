package front

import (
	"io"
	"net/http"
	"sync/atomic"

	"wellapron.example/promql/cmd/promql-proxy/internal/failure"
	"wellapron.example/promql/cmd/promql-proxy/internal/metrics"
)

// Internal is the handler for those who run the proxy: its metrics, and whether it is there and takes requests.
type Internal struct {
	Metrics *metrics.Metrics
	ready   atomic.Bool
}

// SetReady says whether the proxy takes requests.
func (i *Internal) SetReady(ready bool) {
	i.ready.Store(ready)
}

func (i *Internal) ServeHTTP(w http.ResponseWriter, r *http.Request) {
	if r.Method != http.MethodGet && r.Method != http.MethodHead {
		w.Header().Set("Allow", "GET, HEAD")
		(&failure.Error{Status: http.StatusMethodNotAllowed, Kind: failure.BadData, Message: "the method is not GET or HEAD"}).Write(w)
		return
	}
	switch r.URL.EscapedPath() {
	case "/metrics":
		w.Header().Set("Content-Type", metrics.ContentType)
		// A client that is gone by now is not told.
		_, _ = i.Metrics.WriteTo(w)
	case "/-/healthy":
		say(w, http.StatusOK, "healthy")
	case "/-/ready":
		if i.ready.Load() {
			say(w, http.StatusOK, "ready")
		} else {
			say(w, http.StatusServiceUnavailable, "not ready")
		}
	default:
		(&failure.Error{Status: http.StatusNotFound, Kind: failure.NotFound, Message: "no such path"}).Write(w)
	}
}

func say(w http.ResponseWriter, status int, word string) {
	w.Header().Set("Content-Type", "text/plain; charset=utf-8")
	w.WriteHeader(status)
	_, _ = io.WriteString(w, word+"\n")
}
