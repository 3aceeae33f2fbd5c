package front

import (
	"fmt"
	"net/http"
	"runtime/debug"
	"strings"
	"time"

	"wellapron.example/promql/cmd/promql-proxy/internal/failure"
	"wellapron.example/promql/cmd/promql-proxy/internal/logs"
)

// refuse tells the client an error.
func (e *exchange) refuse(failed *failure.Error) {
	e.failed = failed
	failed.Write(e)
}

// end tells the log and the metrics what came of the request. A fault of the proxy itself ends this request and no other.
func (e *exchange) end() {
	fault := recover()
	if fault != nil && fault != http.ErrAbortHandler {
		e.Log.Log(logs.Error, "panic", "type", fmt.Sprintf("%T", fault), "stack", string(debug.Stack()))
		failed := &failure.Error{Status: http.StatusInternalServerError, Kind: failure.Internal, Reason: failure.Panic, Message: "the proxy failed"}
		if e.status == 0 {
			e.refuse(failed)
			fault = nil
		} else {
			e.failed, fault = failed, http.ErrAbortHandler
		}
	}
	took := time.Since(e.begun)
	status := e.status
	if e.failed != nil {
		status = e.failed.Status
		e.Metrics.Refuse(e.failed.Reason)
	}
	e.Metrics.End(e.endpoint, e.request.Method, status, took)
	e.log(status, took)
	if fault != nil {
		panic(fault)
	}
}

func (e *exchange) log(status int, took time.Duration) {
	level := logs.Info
	pairs := []any{
		"endpoint", e.endpoint, "method", e.request.Method, "status", status, "seconds", took.Seconds(), "bytes", e.written,
		"client", e.request.RemoteAddr, "tenant", e.tenant,
	}
	if e.failed != nil {
		pairs = append(pairs, "reason", e.failed.Reason)
		if e.failed.Cause != nil {
			pairs = append(pairs, "cause", e.failed.Cause)
		}
		if status >= http.StatusInternalServerError {
			level = logs.Warn
		}
	}
	if e.LogQueries {
		pairs = append(pairs, "query", strings.Join(e.asked, " "))
		if e.failed != nil {
			pairs = append(pairs, "error", e.failed.Message)
		}
	}
	e.Log.Log(level, "request", pairs...)
}
