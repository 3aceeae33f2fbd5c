package front

import (
	"bufio"
	"encoding/json"
	"io"
	"net"
	"net/http"
	"net/http/httptest"
	"net/url"
	"strings"
	"sync"
	"testing"
	"time"

	"wellapron.example/promql/cmd/promql-proxy/internal/endpoint"
	"wellapron.example/promql/cmd/promql-proxy/internal/logs"
	"wellapron.example/promql/cmd/promql-proxy/internal/metrics"
	"wellapron.example/promql/cmd/promql-proxy/internal/tenant"
	"wellapron.example/promql/cmd/promql-proxy/internal/upstream"
)

const (
	formType = "application/x-www-form-urlencoded"
	success  = `{"status":"success"}`
)

// question is what a Prometheus was asked.
type question struct {
	method, path string
	parameters   url.Values
	header       http.Header
}

// prometheus is a server that keeps what it was asked, and gives one answer.
type prometheus struct {
	mutex  sync.Mutex
	asked  []question
	answer http.HandlerFunc
}

func (p *prometheus) ServeHTTP(w http.ResponseWriter, r *http.Request) {
	_ = r.ParseForm()
	p.mutex.Lock()
	p.asked = append(p.asked, question{r.Method, r.URL.Path, r.Form, r.Header})
	answer := p.answer
	p.mutex.Unlock()
	if answer != nil {
		answer(w, r)
		return
	}
	w.Header().Set("Content-Type", "application/json")
	w.Header().Set("Set-Cookie", "user=team-b")
	w.Header().Set("Vary", "Accept-Encoding")
	_, _ = io.WriteString(w, success)
}

// answerBy lets another handler answer from now on.
func (p *prometheus) answerBy(answer http.HandlerFunc) {
	p.mutex.Lock()
	defer p.mutex.Unlock()
	p.answer = answer
}

// all returns what was asked since the last call.
func (p *prometheus) all() []question {
	p.mutex.Lock()
	defer p.mutex.Unlock()
	asked := p.asked
	p.asked = nil
	return asked
}

// one returns the only thing that was asked.
func (p *prometheus) one(t *testing.T) question {
	t.Helper()
	asked := p.all()
	if len(asked) != 1 {
		t.Fatalf("Prometheus was asked %d times", len(asked))
	}
	return asked[0]
}

// lines is a log that a test may read.
type lines struct {
	mutex sync.Mutex
	text  strings.Builder
}

func (l *lines) Write(text []byte) (int, error) {
	l.mutex.Lock()
	defer l.mutex.Unlock()
	return l.text.Write(text)
}

func (l *lines) String() string {
	l.mutex.Lock()
	defer l.mutex.Unlock()
	return l.text.String()
}

// fixed is the source of one tenant for all.
func fixed(values ...string) tenant.Source {
	return tenant.Source{Label: "tenant", Fixed: values}
}

// byHeader is the source of a tenant in a header.
func byHeader() tenant.Source {
	return tenant.Source{Label: "tenant", Header: "X-Tenant"}
}

// served is a proxy before a Prometheus.
type served struct {
	*httptest.Server
	front  *Front
	behind *prometheus
	log    *lines
}

// serve starts a Prometheus and a proxy before it.
func serve(t *testing.T, tenants tenant.Source, answer http.HandlerFunc) *served {
	t.Helper()
	if err := tenants.Check(); err != nil {
		t.Fatal(err)
	}
	behind := &prometheus{answer: answer}
	server := httptest.NewServer(behind)
	t.Cleanup(server.Close)
	made := before(t, server.URL, tenants)
	made.behind = behind
	return made
}

// before starts a proxy before an address.
func before(t *testing.T, address string, tenants tenant.Source) *served {
	t.Helper()
	log := &lines{}
	front := frontOf(t, address, tenants, log)
	return &served{Server: started(t, front, 0), front: front, log: log}
}

// frontOf returns the handler of a proxy before an address.
func frontOf(t testing.TB, address string, tenants tenant.Source, log *lines) *Front {
	t.Helper()
	behind, err := upstream.New(address, upstream.Access{})
	if err != nil {
		t.Fatal(err)
	}
	return &Front{
		Upstream:  behind,
		Tenants:   tenants,
		Table:     endpoint.NewTable(nil),
		Metrics:   metrics.New(time.Unix(0, 0)),
		Log:       logs.New(log, logs.Info),
		Places:    make(chan struct{}, 4),
		MaxBody:   1 << 20,
		MaxAnswer: 1 << 20,
		Timeout:   time.Minute,
	}
}

// started starts a server that waits so long for a request, or without end.
func started(t *testing.T, front *Front, readTimeout time.Duration) *httptest.Server {
	server := httptest.NewUnstartedServer(front)
	server.Config.ErrorLog = front.Log.Standard()
	server.Config.ReadTimeout = readTimeout
	server.Start()
	t.Cleanup(server.Close)
	return server
}

// request is what a client sends.
type request struct {
	method, target, contentType, body string
	header                            http.Header
}

// do sends a request, and returns the response and its body.
func (s *served) do(t *testing.T, it request) (*http.Response, string) {
	t.Helper()
	made, err := http.NewRequest(it.method, s.URL+it.target, strings.NewReader(it.body))
	if err != nil {
		t.Fatal(err)
	}
	for name, values := range it.header {
		made.Header[name] = values
	}
	if it.contentType != "" {
		made.Header.Set("Content-Type", it.contentType)
	}
	response, err := http.DefaultTransport.RoundTrip(made)
	if err != nil {
		t.Fatal(err)
	}
	return response, bodyOf(t, response)
}

// raw sends bytes as they are, and returns the first response and its body.
func (s *served) raw(t *testing.T, text string) (*http.Response, string) {
	t.Helper()
	connection, err := net.Dial("tcp", s.Listener.Addr().String())
	if err != nil {
		t.Fatal(err)
	}
	defer connection.Close()
	if err := connection.SetDeadline(time.Now().Add(20 * time.Second)); err != nil {
		t.Fatal(err)
	}
	// What a server does not read may not be written to its end.
	_, _ = io.WriteString(connection, text)
	response, err := http.ReadResponse(bufio.NewReader(connection), nil)
	if err != nil {
		t.Fatalf("%.200q: %v", text, err)
	}
	return response, bodyOf(t, response)
}

func bodyOf(t *testing.T, response *http.Response) string {
	t.Helper()
	defer response.Body.Close()
	text, err := io.ReadAll(response.Body)
	if err != nil {
		t.Fatal(err)
	}
	return string(text)
}

// checkError says where a response is not an error in the form of Prometheus, of this status and type.
func checkError(t *testing.T, name string, response *http.Response, body string, status int, kind string) string {
	t.Helper()
	var said struct{ Status, ErrorType, Error string }
	if err := json.Unmarshal([]byte(body), &said); err != nil || said.Status != "error" || said.Error == "" {
		t.Errorf("%s: %d %.300s: %v", name, response.StatusCode, body, err)
	}
	if response.StatusCode != status || said.ErrorType != kind || response.Header.Get("Content-Type") != "application/json" {
		t.Errorf("%s: %d %v %.300s", name, response.StatusCode, response.Header, body)
	}
	return said.Error
}
