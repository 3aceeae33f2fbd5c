// Package upstream asks the Prometheus behind the proxy. Each request is made anew, of what this package is given, so that the server
// behind reads nothing else.
package upstream

import (
	"bytes"
	"context"
	"encoding/json"
	"errors"
	"fmt"
	"io"
	"net"
	"net/http"
	"net/url"
	"strings"
	"time"

	"wellapron.example/promql/cmd/promql-proxy/internal/form"
)

// The headers of a response that pass. Every other one is dropped: it could name a user, or turn the connection into another one.
func responseHeaders() []string {
	return []string{"Content-Type", "Content-Encoding", "Content-Length", "Cache-Control", "Retry-After", "Vary"}
}

const (
	dialTimeout = 10 * time.Second
	idleTimeout = 2 * time.Minute
	maxHeader   = 1 << 16
	maxIdle     = 16
	userAgent   = "promql-proxy"
)

// Server is a Prometheus or an Alertmanager.
type Server struct {
	address   *url.URL
	access    Access
	transport http.RoundTripper
}

// New returns the server at an address such as http://localhost:9090, which has a scheme and a host, and no user, parameters or fragment.
// It makes connections of its own, and none by way of the environment's proxies.
func New(address string, access Access) (*Server, error) {
	parsed, err := url.Parse(address)
	if err != nil {
		return nil, err
	}
	if parsed.Scheme != "http" && parsed.Scheme != "https" || parsed.Host == "" {
		return nil, fmt.Errorf("%q is no address such as http://localhost:9090", address)
	}
	if parsed.User != nil || parsed.RawQuery != "" || parsed.Fragment != "" {
		return nil, errors.New("an address has a scheme, a host and a path, and nothing else")
	}
	if err := access.check(parsed.Scheme); err != nil {
		return nil, err
	}
	encrypted, err := access.tls()
	if err != nil {
		return nil, err
	}
	dialer := &net.Dialer{Timeout: dialTimeout}
	transport := &http.Transport{
		DialContext:            dialer.DialContext,
		TLSClientConfig:        encrypted,
		TLSHandshakeTimeout:    dialTimeout,
		IdleConnTimeout:        idleTimeout,
		MaxIdleConnsPerHost:    maxIdle,
		MaxResponseHeaderBytes: maxHeader,
		DisableCompression:     true,
	}
	return &Server{parsed, access, transport}, nil
}

// Question is what a server is asked.
type Question struct {
	Method     string
	Path       string
	Parameters url.Values
	// JSON is the body of a POST, or nil where that is a form of the parameters.
	JSON   []byte
	Header http.Header
}

// Ask sends a question. Where the server behind responds with another protocol or another place, that is an error.
func (s *Server) Ask(ctx context.Context, question Question) (*http.Response, error) {
	request, err := s.request(ctx, question)
	if err != nil {
		return nil, err
	}
	response, err := s.transport.RoundTrip(request)
	if err != nil {
		return nil, err
	}
	if response.StatusCode < 200 || 300 <= response.StatusCode && response.StatusCode < 400 {
		response.Body.Close()
		return nil, fmt.Errorf("status %d", response.StatusCode)
	}
	return response, nil
}

func (s *Server) request(ctx context.Context, question Question) (*http.Request, error) {
	target := s.address.JoinPath(question.Path)
	var body io.Reader
	mediaType := form.MediaType
	switch {
	case question.JSON != nil:
		body, mediaType = bytes.NewReader(question.JSON), form.JSONType
	case question.Method == http.MethodPost:
		body = strings.NewReader(question.Parameters.Encode())
	default:
		target.RawQuery = question.Parameters.Encode()
	}
	request, err := http.NewRequestWithContext(ctx, question.Method, target.String(), body)
	if err != nil {
		return nil, err
	}
	for name, values := range question.Header {
		request.Header[name] = values
	}
	authorization, err := s.access.authorization()
	if err != nil {
		return nil, err
	}
	if authorization != "" {
		request.Header.Set("Authorization", authorization)
	}
	request.Header.Set("User-Agent", userAgent)
	if body != nil {
		request.Header.Set("Content-Type", mediaType)
	}
	return request, nil
}

// CopyHeaders adds the headers of a response that pass.
func CopyHeaders(to http.Header, response *http.Response) {
	for _, name := range responseHeaders() {
		if values := response.Header.Values(name); len(values) != 0 {
			name = http.CanonicalHeaderKey(name)
			to[name] = append(to[name], values...)
		}
	}
}

// ErrTooLarge says that an answer has more bytes than may be read.
var ErrTooLarge = errors.New("the answer of the server behind is too large")

// ReadAll returns the body of a response, which has so many bytes at most.
func ReadAll(response *http.Response, most int64) ([]byte, error) {
	text, err := io.ReadAll(io.LimitReader(response.Body, most+1))
	if err == nil && int64(len(text)) > most {
		return nil, ErrTooLarge
	}
	return text, err
}

const (
	maxCheckAnswer = 1 << 16
	checkPause     = 500 * time.Millisecond
)

// Wait asks the server a query without a selector until it answers, or until the context ends; then the error says why it did not.
func (s *Server) Wait(ctx context.Context, tryTimeout time.Duration) error {
	var last error
	for {
		err := s.check(ctx, tryTimeout)
		if err == nil {
			return nil
		}
		if last == nil || !isCutOff(ctx, err) {
			last = err
		}
		select {
		case <-ctx.Done():
			return last
		case <-time.After(checkPause):
		}
	}
}

// isCutOff says whether a try ended for want of time, and so says less than the one before it.
func isCutOff(ctx context.Context, err error) bool {
	var network net.Error
	return ctx.Err() != nil || errors.As(err, &network) && network.Timeout()
}

// check asks a query once.
func (s *Server) check(ctx context.Context, timeout time.Duration) error {
	ctx, cancel := context.WithTimeout(ctx, timeout)
	defer cancel()
	response, err := s.Ask(ctx, Question{Method: http.MethodGet, Path: "/api/v1/query", Parameters: url.Values{"query": {"1"}}})
	if err != nil {
		return err
	}
	defer response.Body.Close()
	text, err := ReadAll(response, maxCheckAnswer)
	if err != nil {
		return err
	}
	var answer struct{ Status string }
	if response.StatusCode != http.StatusOK || json.Unmarshal(text, &answer) != nil || answer.Status != "success" {
		return fmt.Errorf("it does not answer /api/v1/query as a Prometheus does: status %d", response.StatusCode)
	}
	return nil
}
