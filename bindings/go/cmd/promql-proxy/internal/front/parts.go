package front

import (
	"bytes"
	"compress/gzip"
	"context"
	"errors"
	"fmt"
	"io"
	"net/http"
	"net/url"
	"strings"

	"wellapron.example/promql/cmd/promql-proxy/internal/cache"
	"wellapron.example/promql/cmd/promql-proxy/internal/endpoint"
	"wellapron.example/promql/cmd/promql-proxy/internal/failure"
	"wellapron.example/promql/cmd/promql-proxy/internal/upstream"
)

// partFailed is what a server said to a part where it failed. Several clients may have asked for it, so no one changes it.
type partFailed struct {
	response *http.Response
	body     []byte
}

func (p *partFailed) Error() string {
	return fmt.Sprintf("a part failed with status %d", p.response.StatusCode)
}

// takesParts says whether the client takes an answer of the cache: it is JSON, which is all that Prometheus has, and was kept.
func (e *exchange) takesParts() bool {
	if isNotStored(e.request.Header) {
		return false
	}
	accepted := strings.Join(e.request.Header.Values("Accept"), ",")
	for _, it := range []string{"*/*", "application/*", "application/json"} {
		if strings.Contains(accepted, it) {
			return true
		}
	}
	return accepted == ""
}

// isNotStored says whether headers forbid to keep an answer, or to give one that was kept.
func isNotStored(header http.Header) bool {
	return strings.Contains(strings.Join(header.Values("Cache-Control"), ","), "no-store")
}

// inParts answers a range query by the cache, or says that it is to be asked as it is.
func (e *exchange) inParts(ctx context.Context, plan *endpoint.Plan, header http.Header) (is bool, failed *failure.Error) {
	text, err := e.Cache.Answer(ctx, plan.Parameters, header, e.asker(plan, header))
	var part *partFailed
	switch {
	case errors.Is(err, cache.ErrWhole):
		return false, nil
	case errors.As(err, &part):
		response := *part.response
		response.Body = io.NopCloser(bytes.NewReader(part.body))
		return true, e.passOn(ctx, plan, &response)
	case err != nil:
		return true, e.unanswered(ctx, err)
	}
	e.writeJSON(text)
	return true, nil
}

// asker returns what asks for a part, for this client and for others. So it neither reads nor writes anything of the client's.
func (e *exchange) asker(plan *endpoint.Plan, header http.Header) cache.Ask {
	behind, counted, most := e.Upstream, e.Metrics, e.MaxAnswer
	header = header.Clone()
	header.Set("Accept", "application/json")
	method, path := plan.Method, plan.Path
	return func(ctx context.Context, parameters url.Values) ([]byte, error) {
		response, err := behind.Ask(ctx, upstream.Question{Method: method, Path: path, Parameters: parameters, Header: header})
		if err != nil {
			return nil, err
		}
		defer response.Body.Close()
		counted.Upstream(string(endpoint.Prometheus), response.StatusCode)
		text, err := upstream.ReadAll(response, most)
		switch {
		case errors.Is(err, upstream.ErrTooLarge) || err == nil && response.StatusCode == http.StatusOK && isNotStored(response.Header):
			return nil, cache.ErrNotKept
		case err != nil:
			return nil, err
		case response.StatusCode >= http.StatusInternalServerError:
			return nil, &partFailed{response, text}
		case response.StatusCode != http.StatusOK || !isJSON(response):
			// What is wrong with a part may not be what is wrong with the whole.
			return nil, cache.ErrWhole
		}
		return text, nil
	}
}

// writeJSON writes an answer, compressed where the client takes that. A client that is gone by now is not told.
func (e *exchange) writeJSON(text []byte) {
	e.Header().Set("Content-Type", "application/json")
	e.Header().Add("Vary", "Accept-Encoding")
	if !e.takesGzip() {
		e.WriteHeader(http.StatusOK)
		_, _ = e.Write(text)
		return
	}
	e.Header().Set("Content-Encoding", "gzip")
	e.WriteHeader(http.StatusOK)
	// (the level is one that there is)
	compressed, _ := gzip.NewWriterLevel(e, gzip.BestSpeed)
	_, _ = compressed.Write(text)
	_ = compressed.Close()
}

// takesGzip says whether a client names gzip as Prometheus has it: without a quality.
func (e *exchange) takesGzip() bool {
	for _, it := range strings.Split(e.request.Header.Get("Accept-Encoding"), ",") {
		if strings.TrimSpace(it) == "gzip" {
			return true
		}
	}
	return false
}
