package front

import (
	"bufio"
	"compress/gzip"
	"fmt"
	"io"
	"net"
	"net/http"
	"net/http/httptest"
	"strings"
	"testing"
	"time"
)

const (
	query    = "/api/v1/query?query=foo"
	rules    = "/api/v1/rules"
	noAnswer = "the server behind did not respond"
)

// hijacked returns an answer that is these bytes.
func hijacked(text string) http.HandlerFunc {
	return func(w http.ResponseWriter, r *http.Request) {
		connection, buffer, err := w.(http.Hijacker).Hijack()
		if err != nil {
			return
		}
		defer connection.Close()
		_, _ = buffer.WriteString(text)
		_ = buffer.Flush()
	}
}

// said returns an answer with a status, headers and a text.
func said(status int, header http.Header, text string) http.HandlerFunc {
	return func(w http.ResponseWriter, r *http.Request) {
		for name, values := range header {
			w.Header()[name] = values
		}
		w.WriteHeader(status)
		_, _ = io.WriteString(w, text)
	}
}

func TestServersThatFail(t *testing.T) {
	isJSON := http.Header{"Content-Type": {"application/json"}}
	zipped := http.Header{"Content-Type": {"application/json"}, "Content-Encoding": {"gzip"}}
	for name, it := range map[string]struct {
		answer http.HandlerFunc
		path   string
		status int
		kind   string
		said   string
	}{
		"elsewhere":           {said(302, http.Header{"Location": {"http://127.0.0.1/federate"}}, ""), query, 502, "unavailable", noAnswer},
		"elsewhere for good":  {said(308, http.Header{"Location": {"/federate"}}, ""), query, 502, "unavailable", noAnswer},
		"not changed":         {said(304, nil, ""), query, 502, "unavailable", noAnswer},
		"another protocol":    {hijacked("HTTP/1.1 101 Switching Protocols\r\nConnection: Upgrade\r\nUpgrade: raw\r\n\r\nsecret"), query, 502, "unavailable", noAnswer},
		"no HTTP":             {hijacked("secret\r\n\r\n"), query, 502, "unavailable", noAnswer},
		"nothing":             {hijacked(""), query, 502, "unavailable", noAnswer},
		"long headers":        {hijacked("HTTP/1.1 200 OK\r\nX-A: " + strings.Repeat("a", 1<<17) + "\r\n\r\n"), query, 502, "unavailable", noAnswer},
		"many early ones":     {hijacked(strings.Repeat("HTTP/1.1 103 Early Hints\r\n\r\n", 100)), query, 502, "unavailable", noAnswer},
		"asks who it is":      {said(401, http.Header{"Www-Authenticate": {"Basic"}}, "secret"), query, 502, "unavailable", "the server behind failed with status 401"},
		"asks in JSON":        {said(401, isJSON, `{"status":"error"}`), query, 502, "unavailable", "the server behind failed with status 401"},
		"asks its proxy":      {said(407, nil, "secret"), query, 502, "unavailable", "the server behind failed with status 407"},
		"says no in HTML":     {said(403, http.Header{"Content-Type": {"text/html"}}, "secret"), query, 403, "bad_data", "the server behind failed with status 403"},
		"has no such path":    {said(404, nil, "secret"), query, 404, "not_found", "the server behind failed with status 404"},
		"is not ready":        {said(503, http.Header{"Retry-After": {"9"}}, "secret"), query, 503, "unavailable", "the server behind failed with status 503"},
		"rules, but an error": {said(500, isJSON, `{"status":"error","error":"secret"}`), rules, 500, "unavailable", "the server behind failed with status 500"},
		"rules, but none":     {said(200, isJSON, `{"status":"success"}`), rules, 502, "unavailable", "the answer of the server behind cannot be filtered"},
		"rules, failed":       {said(200, isJSON, `{"status":"error","data":{"groups":[]}}`), rules, 502, "unavailable", "the answer of the server behind cannot be filtered"},
		"rules that end":      {said(200, isJSON, `{"status":"success","data":{"groups":[`), rules, 502, "unavailable", "the answer of the server behind cannot be filtered"},
		"rules, zipped":       {said(200, zipped, "\x1f\x8b\x08"), rules, 502, "unavailable", "the answer of the server behind cannot be filtered"},
		"labels of numbers": {
			said(200, isJSON, `{"status":"success","data":{"groups":[{"rules":[{"labels":{"tenant":1}}]}]}}`),
			rules, 502, "unavailable", "the answer of the server behind cannot be filtered",
		},
		"many rules": {
			said(200, isJSON, strings.Repeat(" ", 1<<20)+`{"status":"success","data":{"groups":[]}}`),
			rules, 502, "unavailable", "the answer of the server behind has more than 1048576 bytes",
		},
		"rules, cut off": {hijacked("HTTP/1.1 200 OK\r\nContent-Length: 100\r\n\r\n{"), rules, 502, "unavailable", noAnswer},
	} {
		proxy := serve(t, fixed("team-a"), it.answer)
		response, body := proxy.do(t, request{method: "GET", target: it.path})
		if found := checkError(t, name, response, body, it.status, it.kind); found != it.said {
			t.Errorf("%s: %s", name, found)
		}
		wanted := map[bool]string{true: "9", false: ""}[name == "is not ready"]
		if found := response.Header; found.Get("Retry-After") != wanted || len(found.Values("Www-Authenticate")) != 0 || len(found.Values("Location")) != 0 {
			t.Errorf("%s: %v", name, found)
		}
	}
}

func TestServersThatAreNotThere(t *testing.T) {
	closed := httptest.NewServer(http.NotFoundHandler())
	closed.Close()
	proxy := before(t, closed.URL, fixed("team-a"))
	response, body := proxy.do(t, request{method: "GET", target: query})
	if found := checkError(t, "closed", response, body, http.StatusBadGateway, "unavailable"); found != noAnswer {
		t.Error(found)
	}
}

// slow starts a proxy that waits for a short time for its server.
func slow(t *testing.T, answer http.HandlerFunc) *served {
	proxy := serve(t, fixed("team-a"), answer)
	proxy.front.Timeout = 50 * time.Millisecond
	return proxy
}

func TestSlowServers(t *testing.T) {
	proxy := slow(t, func(w http.ResponseWriter, r *http.Request) { <-r.Context().Done() })
	for _, path := range []string{query, rules} {
		response, body := proxy.do(t, request{method: "GET", target: path})
		checkError(t, path, response, body, http.StatusGatewayTimeout, "timeout")
	}
	proxy = slow(t, func(w http.ResponseWriter, r *http.Request) {
		w.WriteHeader(http.StatusOK)
		w.(http.Flusher).Flush()
		<-r.Context().Done()
	})
	response, body := proxy.do(t, request{method: "GET", target: rules})
	checkError(t, "rules that come slowly", response, body, http.StatusGatewayTimeout, "timeout")
	proxy.checkCutOff(t, "an answer that comes slowly")
}

// checkCutOff says where the answer to a query looks whole.
func (s *served) checkCutOff(t *testing.T, name string) {
	t.Helper()
	// A connection that was used before would be tried again.
	client := &http.Client{Transport: &http.Transport{DisableKeepAlives: true}}
	response, err := client.Get(s.URL + query)
	if err != nil {
		return
	}
	defer response.Body.Close()
	if text, err := io.ReadAll(response.Body); err == nil && response.StatusCode == http.StatusOK {
		t.Errorf("%s looks whole: %d %s", name, response.StatusCode, text)
	}
}

// Each place is one request, and is free again when that is answered, whatever came of it.
func TestPlaces(t *testing.T) {
	begun, release := make(chan bool), make(chan bool)
	proxy := serve(t, fixed("team-a"), func(w http.ResponseWriter, r *http.Request) {
		begun <- true
		<-release
		hijacked("HTTP/1.1 200 OK\r\nContent-Length: 100\r\n\r\n{")(w, r)
	})
	for round := 0; round < 2; round++ {
		ended := make(chan bool)
		for place := 0; place < 4; place++ {
			go func() {
				proxy.checkCutOff(t, "an answer that is cut off")
				ended <- true
			}()
			<-begun
		}
		response, body := proxy.do(t, request{method: "GET", target: query})
		checkError(t, "a fifth request", response, body, http.StatusServiceUnavailable, "unavailable")
		response, body = proxy.do(t, request{method: "GET", target: "/"})
		checkError(t, "another path", response, body, http.StatusNotFound, "not_found")
		for place := 0; place < 4; place++ {
			release <- true
			<-ended
		}
	}
}

// An answer that ends too early is not taken for a whole one.
func TestAnswersThatAreCutOff(t *testing.T) {
	for _, text := range []string{
		"HTTP/1.1 200 OK\r\nContent-Length: 100\r\n\r\n{",
		"HTTP/1.1 200 OK\r\nTransfer-Encoding: chunked\r\n\r\n1\r\n{\r\n",
	} {
		serve(t, fixed("team-a"), hijacked(text)).checkCutOff(t, text)
	}
}

// What Prometheus says of a query that it does not take gets to the client.
func TestErrorsOfPrometheus(t *testing.T) {
	const text = `{"status":"error","errorType":"execution","error":"query processing would load too many samples"}`
	proxy := serve(t, fixed("team-a"), said(422, http.Header{"Content-Type": {"application/json"}}, text))
	response, body := proxy.do(t, request{method: "GET", target: query})
	if response.StatusCode != http.StatusUnprocessableEntity || body != text {
		t.Errorf("%d %s", response.StatusCode, body)
	}
}

// An answer that is not filtered gets to the client as it is, compressed, too.
func TestCompressedAnswers(t *testing.T) {
	proxy := serve(t, fixed("team-a"), func(w http.ResponseWriter, r *http.Request) {
		w.Header().Set("Content-Type", "application/json")
		w.Header().Set("Content-Encoding", "gzip")
		zipped := gzip.NewWriter(w)
		_, _ = io.WriteString(zipped, success)
		_ = zipped.Close()
	})
	response, body := proxy.do(t, request{method: "GET", target: query, header: http.Header{"Accept-Encoding": {"gzip"}}})
	reader, err := gzip.NewReader(strings.NewReader(body))
	if err != nil {
		t.Fatal(err)
	}
	if text, err := io.ReadAll(reader); err != nil || string(text) != success || response.Header.Get("Content-Encoding") != "gzip" {
		t.Errorf("%s %v", text, err)
	}
}

// A server behind that would hand over its connection gets no request to do so, and what it sends in spite of that goes nowhere.
func TestNoOtherProtocol(t *testing.T) {
	proxy := serve(t, fixed("team-a"), hijacked("HTTP/1.1 101 Switching Protocols\r\nConnection: Upgrade\r\nUpgrade: raw\r\n\r\nsecret"))
	response, body := proxy.raw(t, "GET "+query+" HTTP/1.1\r\nHost: x\r\nConnection: Upgrade\r\nUpgrade: raw\r\n\r\n")
	checkError(t, "an upgrade", response, body, http.StatusBadGateway, "unavailable")
	if found := proxy.behind.one(t).header; found.Get("Upgrade") != "" || found.Get("Connection") != "" || strings.Contains(body, "secret") {
		t.Errorf("%v, %s", found, body)
	}
}

const manyRules = `{"status":"success","data":{"groups":[
	{"name":"g","file":"f","interval":60,"limit":0,"evaluationTime":0.1,"lastEvaluation":"now","secret":"of all","rules":[
		{"type":"alerting","name":"A","query":"up == 0","labels":{"tenant":"team-a"},"state":"firing","more":"x < y","alerts":[
			{"labels":{"alertname":"A","tenant":"team-a"},"value":"1e+00"},{"labels":{"alertname":"A","tenant":"secret"},"value":"2"}]},
		{"type":"recording","name":"secret","query":"secret","labels":{"tenant":"team-b"}},
		{"type":"recording","name":"secret","query":"secret"},
		{"type":"alerting","name":"secret","labels":{"Tenant":"team-a"},"alerts":[{"labels":{"tenant":"team-a"}}]}]},
	{"name":"secret","file":"secret","rules":[{"labels":{"tenant":"team-b"},"name":"secret"}]},
	{"name":"empty secret","file":"f","rules":[]}],
	"groupNextToken":"secret"},"warnings":["secret"]}`

const fewRules = `{"data":{"groups":[{"evaluationTime":0.1,"file":"f","interval":60,"lastEvaluation":"now","limit":0,"name":"g","rules":[` +
	`{"alerts":[{"labels":{"alertname":"A","tenant":"team-a"},"value":"1e+00"}],"labels":{"tenant":"team-a"},` +
	`"more":"x \u003c y","name":"A","query":"up == 0","state":"firing","type":"alerting"}]}]},"status":"success"}`

func TestRulesAndAlerts(t *testing.T) {
	const manyAlerts = `{"status":"success","data":{"secret":1,"alerts":[{"labels":{"tenant":"team-a"},"value":"1"},` +
		`{"labels":{"tenant":"team-a.*"}},{"labels":{"tenant":"TEAM-A"}},{"labels":{}},{"labels":null},{},null,{"labels":{"tenant":"team-b"}}]},"infos":["secret"]}`
	const noRules, noAlerts = `{"data":{"groups":[]},"status":"success"}`, `{"data":{"alerts":[]},"status":"success"}`
	for _, it := range []struct{ path, tenant, answer, wanted string }{
		{rules, "team-a", manyRules, fewRules},
		{rules, "team-c", manyRules, noRules},
		{rules, ".*", manyRules, noRules},
		{rules + "?type=alert&rule_name[]=A&rule_name[]=B&file[]=f&exclude_alerts=true", "team-a", manyRules, fewRules},
		{"/api/v1/alerts", "team-a", manyAlerts, `{"data":{"alerts":[{"labels":{"tenant":"team-a"},"value":"1"}]},"status":"success"}`},
		{"/api/v1/alerts", "team-c", manyAlerts, noAlerts},
		{"/api/v1/alerts", "team-a", `{"status":"success","data":{"alerts":[]}}`, noAlerts},
	} {
		proxy := serve(t, fixed(it.tenant), said(200, http.Header{"Content-Type": {"application/json"}}, it.answer))
		response, body := proxy.do(t, request{method: "GET", target: it.path})
		if response.StatusCode != http.StatusOK || body != it.wanted || response.Header.Get("Content-Type") != "application/json" {
			t.Errorf("%s: %d %v %s", it.path, response.StatusCode, response.Header, body)
		}
	}
	proxy := serve(t, fixed("team-a", "team-b"), said(200, nil, manyAlerts))
	_, body := proxy.do(t, request{method: "GET", target: "/api/v1/alerts"})
	if wanted := `{"data":{"alerts":[{"labels":{"tenant":"team-a"},"value":"1"},{"labels":{"tenant":"team-b"}}]},"status":"success"}`; body != wanted {
		t.Error(body)
	}
	for _, path := range []string{rules + "?match[]=a-b", rules + "?group_limit=1", rules + "?type=alert&type=record", "/api/v1/alerts?x=1"} {
		response, body := proxy.do(t, request{method: "GET", target: path})
		checkError(t, path, response, body, http.StatusBadRequest, "bad_data")
	}
}

func TestLogAndMetrics(t *testing.T) {
	for _, shows := range []bool{false, true} {
		proxy := serve(t, byHeader(), nil)
		proxy.front.LogQueries = shows
		header := http.Header{"X-Tenant": {"team \u202ea"}}
		proxy.do(t, request{method: "GET", target: "/api/v1/query?query=secret_foo", header: header})
		proxy.do(t, request{method: "GET", target: "/api/v1/query?query=secret_foo+secret_bar", header: header})
		proxy.do(t, request{method: "GET", target: "/api/v1/series?match[]=secret_foo%1b[0m", header: header})
		proxy.do(t, request{method: "GET", target: "/api/v1/secret", header: header})
		proxy.do(t, request{method: "SECRET", target: "/api/v1/query?query=secret_foo", header: header})
		proxy.Close()
		text := proxy.log.String()
		if strings.Contains(text, "secret") != shows || strings.Count(text, "\n") != 5 || strings.ContainsAny(text, "\x1b\u202e") {
			t.Error(text)
		}
		for _, wanted := range []string{
			`level=info msg=request endpoint=query method=GET status=200 seconds=`, `tenant="team \u202ea"`, "status=400", "reason=query", "reason=path",
		} {
			if !strings.Contains(text, wanted) {
				t.Errorf("there is no %s in %s", wanted, text)
			}
		}
		var page strings.Builder
		if _, err := proxy.front.Metrics.WriteTo(&page); err != nil {
			t.Fatal(err)
		}
		for _, wanted := range []string{
			`promql_proxy_requests_total{endpoint="query",method="GET",code="200"} 1`, `promql_proxy_requests_total{endpoint="query",method="GET",code="400"} 1`,
			`promql_proxy_requests_total{endpoint="none",method="GET",code="404"} 1`, `promql_proxy_requests_total{endpoint="query",method="other",code="405"} 1`,
			`promql_proxy_requests_refused_total{reason="query"} 2`, `promql_proxy_upstream_responses_total{server="prometheus",code="200"} 1`,
			`promql_proxy_request_duration_seconds_count{endpoint="query"} 3`, "promql_proxy_requests_in_flight 0",
		} {
			if !strings.Contains(page.String(), wanted+"\n") {
				t.Errorf("there is no %s in %s", wanted, page.String())
			}
		}
	}
}

// A fault in the proxy ends one request, and tells the client and the log no more than that.
func TestPanics(t *testing.T) {
	proxy := serve(t, fixed("team-a"), nil)
	proxy.front.Table = nil
	response, body := proxy.do(t, request{method: "GET", target: query})
	checkError(t, "a panic", response, body, http.StatusInternalServerError, "internal")
	if text := proxy.log.String(); !strings.Contains(text, "level=error msg=panic") || strings.Contains(text, "foo") {
		t.Error(text)
	}
}

// A body that does not come is not waited for longer than the server reads.
func TestBodiesThatDoNotCome(t *testing.T) {
	proxy := serve(t, fixed("team-a"), nil)
	server := started(t, proxy.front, 500*time.Millisecond)
	connection, err := net.Dial("tcp", server.Listener.Addr().String())
	if err != nil {
		t.Fatal(err)
	}
	defer connection.Close()
	_ = connection.SetDeadline(time.Now().Add(20 * time.Second))
	fmt.Fprintf(connection, "POST /api/v1/query HTTP/1.1\r\nHost: x\r\nContent-Type: %s\r\nContent-Length: 9\r\n\r\nquery", formType)
	response, err := http.ReadResponse(bufio.NewReader(connection), nil)
	if err != nil {
		t.Fatal(err)
	}
	checkError(t, "half of a body", response, bodyOf(t, response), http.StatusRequestTimeout, "timeout")
	proxy.checkAsked(t, "half of a body", 0)
}

func TestInternal(t *testing.T) {
	proxy := serve(t, fixed("team-a"), nil)
	inside := &Internal{Metrics: proxy.front.Metrics}
	server := httptest.NewServer(inside)
	defer server.Close()
	for _, ready := range []bool{false, true, false} {
		inside.SetReady(ready)
		for path, wanted := range map[string]int{
			"/-/healthy": 200, "/-/ready": map[bool]int{true: 200, false: 503}[ready], "/metrics": 200, "/": 404, "/-/quit": 404, "/api/v1/query?query=foo": 404,
		} {
			response, err := http.Get(server.URL + path)
			if err != nil {
				t.Fatal(err)
			}
			if body := bodyOf(t, response); response.StatusCode != wanted {
				t.Errorf("%s: %d %s", path, response.StatusCode, body)
			}
		}
	}
	response, err := http.Post(server.URL+"/metrics", "", nil)
	if err != nil {
		t.Fatal(err)
	}
	checkError(t, "POST", response, bodyOf(t, response), http.StatusMethodNotAllowed, "bad_data")
}
