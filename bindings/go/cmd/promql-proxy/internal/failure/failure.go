// Package failure has the errors that a client is told, in the JSON form that Prometheus has for them.
package failure

import (
	"encoding/json"
	"net/http"
)

// Kind is a type of an error of Prometheus.
type Kind string

// The types that the proxy uses.
const (
	BadData     Kind = "bad_data"
	Execution   Kind = "execution"
	Internal    Kind = "internal"
	NotFound    Kind = "not_found"
	Timeout     Kind = "timeout"
	Unavailable Kind = "unavailable"
	Canceled    Kind = "canceled"
)

// Reason says in a metric and in the log why a request failed. It never has a text of the client in it.
type Reason string

// The reasons.
const (
	Path         Reason = "path"
	Method       Reason = "method"
	Body         Reason = "body"
	Parameter    Reason = "parameter"
	Header       Reason = "header"
	Tenant       Reason = "tenant"
	Query        Reason = "query"
	Conflict     Reason = "conflict"
	Limit        Reason = "limit"
	Memory       Reason = "memory"
	Busy         Reason = "busy"
	Upstream     Reason = "upstream"
	UpstreamTime Reason = "upstream_timeout"
	ClientLeft   Reason = "client_left"
	Answer       Reason = "answer"
	Panic        Reason = "panic"
)

// ClientClosed is the status in the log and in metrics where the client left before it was answered.
const ClientClosed = 499

// Error is why a request is not answered. Cause is for the log alone, and may be nil.
type Error struct {
	Status  int
	Kind    Kind
	Reason  Reason
	Message string
	Cause   error
}

func (e *Error) Error() string {
	return e.Message
}

// Unwrap returns the cause.
func (e *Error) Unwrap() error {
	return e.Cause
}

// Bad returns the error of a request that is wrong.
func Bad(reason Reason, message string) *Error {
	return &Error{Status: http.StatusBadRequest, Kind: BadData, Reason: reason, Message: message}
}

// Write responds as Prometheus does where a request fails.
func (e *Error) Write(w http.ResponseWriter) {
	w.Header().Set("Content-Type", "application/json")
	w.WriteHeader(e.Status)
	// The client may be gone: there is no one to tell then.
	_ = json.NewEncoder(w).Encode(map[string]string{"status": "error", "errorType": string(e.Kind), "error": e.Message})
}
