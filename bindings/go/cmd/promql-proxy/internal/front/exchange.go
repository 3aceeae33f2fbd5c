package front

import (
	"context"
	"errors"
	"fmt"
	"io"
	"mime"
	"net"
	"net/http"
	"strings"
	"time"

	"wellapron.example/promql/cmd/promql-proxy/internal/endpoint"
	"wellapron.example/promql/cmd/promql-proxy/internal/failure"
	"wellapron.example/promql/cmd/promql-proxy/internal/filter"
	"wellapron.example/promql/cmd/promql-proxy/internal/form"
	"wellapron.example/promql/cmd/promql-proxy/internal/tenant"
	"wellapron.example/promql/cmd/promql-proxy/internal/upstream"
)

// exchange is a request and its response, and what the log and the metrics are told of it.
type exchange struct {
	*Front
	http.ResponseWriter
	request  *http.Request
	begun    time.Time
	endpoint string
	path     string
	segment  string
	tenant   tenant.Tenant
	asked    []string
	status   int
	written  int64
	gone     bool
	failed   *failure.Error
}

// WriteHeader keeps the status.
func (e *exchange) WriteHeader(status int) {
	e.status = status
	e.ResponseWriter.WriteHeader(status)
}

// Write counts the bytes, and keeps whether the client takes them.
func (e *exchange) Write(text []byte) (int, error) {
	written, err := e.ResponseWriter.Write(text)
	e.written += int64(written)
	e.gone = err != nil
	return written, err
}

// serve answers the request, or says why not.
func (e *exchange) serve() *failure.Error {
	found, err := e.route()
	if err != nil {
		return err
	}
	select {
	case e.Places <- struct{}{}:
		defer func() { <-e.Places }()
	default:
		e.Header().Set("Retry-After", "1")
		message := "there are too many requests"
		return &failure.Error{Status: http.StatusServiceUnavailable, Kind: failure.Unavailable, Reason: failure.Busy, Message: message}
	}
	return e.answer(found)
}

// answer answers the request of an endpoint.
func (e *exchange) answer(found *endpoint.Endpoint) *failure.Error {
	mediaType := form.MediaType
	if found.JSON {
		mediaType = form.JSONType
	}
	sent, err := form.Read(e.ResponseWriter, e.request, mediaType, e.MaxBody)
	if err != nil {
		return err
	}
	e.asked = endpoint.Asked(sent)
	named := tenant.Request{Header: e.request.Header, Address: sent.Address, Body: sent.Form, Segment: e.segment}
	if e.tenant, err = e.Tenants.Of(named); err != nil {
		return err
	}
	header, err := e.Headers.Of(e.request.Header, e.tenant)
	if err != nil {
		return err
	}
	enforcement := endpoint.Enforcement{Tenant: e.tenant, RejectConflicts: e.RejectConflicts, Shared: e.Shared}
	plan, err := found.Plan(e.request.Method, e.path, sent, enforcement)
	if err != nil {
		return err
	}
	return e.carryOut(plan, header)
}

// carryOut asks what a plan asks, in the time that there is for both of its questions.
func (e *exchange) carryOut(plan *endpoint.Plan, header http.Header) *failure.Error {
	// The request ends with the client's, so a client that leaves takes its query with it.
	ctx, cancel := context.WithTimeout(e.request.Context(), e.Timeout)
	defer cancel()
	if plan.Guard != nil {
		if _, err := e.filtered(ctx, plan.Guard, header); err != nil {
			return err
		}
	}
	if plan.Ranged && e.Cache != nil && e.takesParts() {
		if is, err := e.inParts(ctx, plan, header); is {
			return err
		}
	}
	return e.pass(ctx, plan, header)
}

// route finds the endpoint of the path as it was written, without what says the tenant.
func (e *exchange) route() (*endpoint.Endpoint, *failure.Error) {
	var has bool
	e.segment, e.path, has = e.Tenants.CutPath(e.request.URL.EscapedPath())
	found := e.Table.Find(e.path)
	if !has || found == nil {
		return nil, &failure.Error{Status: http.StatusNotFound, Kind: failure.NotFound, Reason: failure.Path, Message: "no such path"}
	}
	e.endpoint = found.Name
	for _, method := range found.Methods {
		if e.request.Method == method {
			return found, nil
		}
	}
	e.Header().Set("Allow", strings.Join(found.Methods, ", "))
	message := "the method is not " + strings.Join(found.Methods, " or ")
	return nil, &failure.Error{Status: http.StatusMethodNotAllowed, Kind: failure.BadData, Reason: failure.Method, Message: message}
}

// pass asks the server behind, and gives its answer back.
func (e *exchange) pass(ctx context.Context, plan *endpoint.Plan, header http.Header) *failure.Error {
	if plan.Filter != nil {
		kept, err := e.filtered(ctx, plan, header)
		if err != nil {
			return err
		}
		e.Header().Set("Content-Type", "application/json")
		e.WriteHeader(http.StatusOK)
		// A client that is gone by now is not told.
		_, _ = e.Write(kept)
		return nil
	}
	for _, name := range []string{"Accept", "Accept-Encoding"} {
		header[name] = e.request.Header.Values(name)
	}
	response, failed := e.ask(ctx, plan, header)
	if failed != nil {
		return failed
	}
	defer response.Body.Close()
	return e.passOn(ctx, plan, response)
}

// passOn gives the answer of a server behind to the client.
func (e *exchange) passOn(ctx context.Context, plan *endpoint.Plan, response *http.Response) *failure.Error {
	if response.StatusCode >= 400 && (!isJSON(response) || asksWho(response)) {
		return e.failedBehind(plan, response)
	}
	upstream.CopyHeaders(e.Header(), response)
	e.WriteHeader(response.StatusCode)
	if _, err := io.Copy(e, response.Body); err != nil {
		// The status is sent, so that the response is cut off is all that a client can be told.
		e.failed = e.unanswered(ctx, err)
		panic(http.ErrAbortHandler)
	}
	return nil
}

// filtered asks the server behind, and returns what the tenant may see of its answer.
func (e *exchange) filtered(ctx context.Context, plan *endpoint.Plan, header http.Header) ([]byte, *failure.Error) {
	response, failed := e.ask(ctx, plan, header)
	if failed != nil {
		return nil, failed
	}
	defer response.Body.Close()
	if response.StatusCode == http.StatusNotFound && plan.Nothing != nil && isJSON(response) {
		return plan.Nothing, nil
	}
	if response.StatusCode >= 400 {
		return nil, e.failedBehind(plan, response)
	}
	text, err := upstream.ReadAll(response, e.MaxAnswer)
	switch {
	case errors.Is(err, upstream.ErrTooLarge):
		message := fmt.Sprintf("the answer of the server behind has more than %d bytes", e.MaxAnswer)
		return nil, badGateway(failure.Limit, message, err)
	case err != nil:
		return nil, e.unanswered(ctx, err)
	}
	kept, err := plan.Filter(text)
	switch {
	case errors.Is(err, filter.ErrOther):
		return nil, missing(plan)
	case errors.Is(err, filter.ErrSteps):
		failed := &failure.Error{Status: http.StatusUnprocessableEntity, Kind: failure.Execution, Reason: failure.Limit, Message: "match[]: " + err.Error()}
		return nil, failed
	case err != nil:
		return nil, badGateway(failure.Answer, "the answer of the server behind cannot be filtered", err)
	}
	return kept, nil
}

// ask asks the server of a plan.
func (e *exchange) ask(ctx context.Context, plan *endpoint.Plan, header http.Header) (*http.Response, *failure.Error) {
	server := e.Upstream
	if plan.Server == endpoint.Alertmanager {
		server = e.Alertmanager
	}
	question := upstream.Question{Method: plan.Method, Path: plan.Path, Parameters: plan.Parameters, JSON: plan.Body, Header: header}
	response, err := server.Ask(ctx, question)
	if err != nil {
		return nil, e.unanswered(ctx, err)
	}
	e.Metrics.Upstream(string(plan.Server), response.StatusCode)
	return response, nil
}

// missing tells that there is no such thing for the tenant, whether others have it or not.
func missing(plan *endpoint.Plan) *failure.Error {
	return &failure.Error{Status: http.StatusNotFound, Kind: failure.NotFound, Reason: failure.Upstream, Message: plan.Missing}
}

// unanswered says why the server behind did not answer, or not to its end.
func (e *exchange) unanswered(ctx context.Context, err error) *failure.Error {
	var network net.Error
	switch {
	case e.gone || e.request.Context().Err() != nil:
		return &failure.Error{Status: failure.ClientClosed, Kind: failure.Canceled, Reason: failure.ClientLeft, Message: "the client left"}
	case errors.Is(ctx.Err(), context.DeadlineExceeded) || errors.As(err, &network) && network.Timeout():
		message := "the server behind took too long"
		return &failure.Error{Status: http.StatusGatewayTimeout, Kind: failure.Timeout, Reason: failure.UpstreamTime, Message: message, Cause: err}
	}
	return badGateway(failure.Upstream, "the server behind did not respond", err)
}

// failedBehind tells the error of a server behind that says it in another way than Prometheus, or one of an answer that is filtered.
func (e *exchange) failedBehind(plan *endpoint.Plan, response *http.Response) *failure.Error {
	if response.StatusCode == http.StatusNotFound && plan.Missing != "" {
		return missing(plan)
	}
	message := fmt.Sprintf("the server behind failed with status %d", response.StatusCode)
	status, kind := response.StatusCode, failure.Unavailable
	switch {
	case asksWho(response):
		status = http.StatusBadGateway
	case status == http.StatusNotFound:
		kind = failure.NotFound
	case status < 500:
		kind = failure.BadData
	}
	if after := response.Header.Get("Retry-After"); after != "" {
		e.Header().Set("Retry-After", after)
	}
	return &failure.Error{Status: status, Kind: kind, Reason: failure.Upstream, Message: message}
}

func badGateway(reason failure.Reason, message string, cause error) *failure.Error {
	return &failure.Error{Status: http.StatusBadGateway, Kind: failure.Unavailable, Reason: reason, Message: message, Cause: cause}
}

// asksWho says whether a server behind asks who the proxy is. A client would take that for a question to itself.
func asksWho(response *http.Response) bool {
	return response.StatusCode == http.StatusUnauthorized || response.StatusCode == http.StatusProxyAuthRequired
}

func isJSON(response *http.Response) bool {
	found, _, err := mime.ParseMediaType(response.Header.Get("Content-Type"))
	return err == nil && found == "application/json"
}
