package front

import (
	"compress/gzip"
	"fmt"
	"io"
	"net/http"
	"net/url"
	"strconv"
	"strings"
	"sync"
	"testing"
	"time"

	"wellapron.example/promql/cmd/promql-proxy/internal/cache"
	"wellapron.example/promql/cmd/promql-proxy/internal/tenant"
)

// matrixOf is what a Prometheus of these tests answers: a series for each matcher of a tenant in the query, with a point for each time.
func matrixOf(query string, start, end, step int64) string {
	var points []string
	for at := start; at <= end; at += step {
		points = append(points, fmt.Sprintf(`[%d,"%d"]`, at, at%7))
	}
	name := strings.NewReplacer(`"`, "", `\`, "").Replace(query)
	return `{"status":"success","data":{"resultType":"matrix","result":[{"metric":{"q":"` + name + `"},"values":[` + strings.Join(points, ",") + `]}]}}`
}

// evaluates answers range queries.
func evaluates(w http.ResponseWriter, r *http.Request) {
	var times [3]int64
	for i, name := range []string{"start", "end", "step"} {
		times[i], _ = strconv.ParseInt(r.Form.Get(name), 10, 64)
	}
	w.Header().Set("Content-Type", "application/json")
	if times[2] < 1 {
		_, _ = io.WriteString(w, success)
		return
	}
	_, _ = io.WriteString(w, matrixOf(r.Form.Get("query"), times[0], times[1], times[2]))
}

// serveInParts starts a proxy with a cache before a Prometheus.
func serveInParts(t *testing.T, tenants tenant.Source, answer http.HandlerFunc) *served {
	t.Helper()
	made := serve(t, tenants, answer)
	made.front.Cache = &cache.Cache{
		Store: cache.NewMemory(1<<20, made.front.Metrics), Server: "a", Split: time.Hour, Settle: time.Minute, Keep: time.Hour, MaxAnswer: 1 << 20,
		Timeout: time.Minute, Places: make(chan struct{}, 4), Counts: made.front.Metrics, Now: time.Now,
	}
	return made
}

// ranged is a range of 90 minutes in two parts.
const ranged = "start=1700000000&end=1700005400&step=600"

func rangeOf(query string) string {
	return "/api/v1/query_range?query=" + url.QueryEscape(query) + "&" + ranged
}

func TestParts(t *testing.T) {
	s := serveInParts(t, fixed("a"), evaluates)
	wanted := matrixOf(`a{tenant="a"}`, 1700000000, 1700005400, 600)
	for i, it := range []struct {
		request
		asked int
	}{
		{request{method: "GET", target: rangeOf("a")}, 2},
		{request{method: "GET", target: rangeOf("a")}, 0},
		{request{method: "POST", target: "/api/v1/query_range", contentType: formType, body: "query=a&" + ranged}, 0},
		{request{method: "GET", target: rangeOf("a"), header: http.Header{"Accept": {"text/html, */*;q=0.8"}}}, 0},
		{request{method: "GET", target: rangeOf("a") + "&stats=all"}, 1},
		{request{method: "GET", target: rangeOf("a"), header: http.Header{"Accept": {"text/csv"}}}, 1},
		{request{method: "GET", target: rangeOf("a"), header: http.Header{"Cache-Control": {"no-cache, no-store"}}}, 1},
	} {
		response, body := s.do(t, it.request)
		if response.StatusCode != 200 || body != wanted || response.Header.Get("Content-Type") != "application/json" {
			t.Errorf("%d: %d %v %s", i, response.StatusCode, response.Header, body)
		}
		if asked := s.behind.all(); len(asked) != it.asked {
			t.Errorf("%d: asked %v", i, asked)
		}
	}
	// A query at one time is not one over a range.
	if _, body := s.do(t, request{method: "GET", target: "/api/v1/query?query=a"}); !strings.Contains(body, "success") {
		t.Error(body)
	}
}

func TestCompressedParts(t *testing.T) {
	s := serveInParts(t, fixed("a"), evaluates)
	for accepted, is := range map[string]bool{"gzip": true, "deflate, gzip": true, "identity": false, "gzip;q=0": false} {
		response, body := s.do(t, request{method: "GET", target: rangeOf("a"), header: http.Header{"Accept-Encoding": {accepted}}})
		if is != (response.Header.Get("Content-Encoding") == "gzip") || response.Header.Get("Vary") != "Accept-Encoding" {
			t.Errorf("%s: %v", accepted, response.Header)
		}
		if is {
			reader, err := gzip.NewReader(strings.NewReader(body))
			if err != nil {
				t.Fatal(err)
			}
			text, err := io.ReadAll(reader)
			if err != nil {
				t.Fatal(err)
			}
			body = string(text)
		}
		if body != matrixOf(`a{tenant="a"}`, 1700000000, 1700005400, 600) {
			t.Errorf("%s: %s", accepted, body)
		}
	}
}

// No tenant gets what another asked for, however the query tries, nor one whom a header names.
func TestPartsOfTenants(t *testing.T) {
	s := serveInParts(t, byHeader(), evaluates)
	if err := s.front.Headers.Set("X-Scope-OrgID: {tenant}"); err != nil {
		t.Fatal(err)
	}
	if err := s.front.Headers.Pass("X-User"); err != nil {
		t.Fatal(err)
	}
	s.front.Shared = []string{"shared"}
	for again := 0; again < 2; again++ {
		for _, query := range []string{"a", `a{tenant="a"}`, `a{tenant=~".*"}`, "shared", `{__name__="shared"}`} {
			for _, it := range []http.Header{{"X-Tenant": {"a"}}, {"X-Tenant": {"b"}}, {"X-Tenant": {"a"}, "X-User": {"u"}}, {"X-Tenant": {"a"}, "X-User": {"v"}}} {
				_, body := s.do(t, request{method: "GET", target: rangeOf(query), header: it})
				isShared := query == "shared"
				if strings.Contains(body, "tenant="+it.Get("X-Tenant")) == isShared || !strings.Contains(body, "1700005400") {
					t.Errorf("%s of %v: %s", query, it, body)
				}
				for _, asked := range s.behind.all() {
					if again != 0 || asked.header.Get("X-Scope-OrgID") != it.Get("X-Tenant") || asked.header.Get("X-User") != it.Get("X-User") {
						t.Errorf("%s of %v: %v", query, it, asked)
					}
				}
			}
		}
	}
}

// fails answers range queries until their start is that of the second part.
func fails(status int, contentType, body string) http.HandlerFunc {
	return func(w http.ResponseWriter, r *http.Request) {
		if r.Form.Get("start") == "1700000000" {
			evaluates(w, r)
			return
		}
		w.Header().Set("Content-Type", contentType)
		w.Header().Set("Retry-After", "7")
		w.WriteHeader(status)
		_, _ = io.WriteString(w, body)
	}
}

func TestPartsThatFail(t *testing.T) {
	const said = `{"status":"error","errorType":"timeout","error":"query timed out"}`
	for _, it := range []struct {
		status            int
		contentType, body string
		gets              int
		text              string
	}{
		{503, "application/json", said, 503, said},
		{503, "text/plain", "tenant-b", 503, "the server behind failed with status 503"},
		// The whole is asked then, and the range from its start on gets an answer.
		{422, "application/json", said, 200, "success"},
		{401, "text/plain", "who?", 200, "success"},
		{302, "text/plain", "", 502, "the server behind did not respond"},
		{200, "text/plain", "success", 200, "success"},
		{200, "application/json", `{"status":"success","data":{"resultType":"matrix","result":[`, 200, "success"},
	} {
		s := serveInParts(t, fixed("a"), fails(it.status, it.contentType, it.body))
		response, body := s.do(t, request{method: "GET", target: rangeOf("a")})
		if response.StatusCode != it.gets || !strings.Contains(body, it.text) || it.gets == 503 && response.Header.Get("Retry-After") != "7" {
			t.Errorf("%v: %d %v %s", it, response.StatusCode, response.Header, body)
		}
		s.behind.answerBy(evaluates)
		if response, body = s.do(t, request{method: "GET", target: rangeOf("a")}); body != matrixOf(`a{tenant="a"}`, 1700000000, 1700005400, 600) {
			t.Errorf("%v, later: %d %s", it, response.StatusCode, body)
		}
	}
}

// An answer that ends in the middle is no answer, and nothing of it is kept.
func TestPartsThatAreCutOff(t *testing.T) {
	s := serveInParts(t, fixed("a"), func(w http.ResponseWriter, r *http.Request) {
		w.Header().Set("Content-Type", "application/json")
		_, _ = io.WriteString(w, `{"status":"success","data":{"resultType":"matrix","result":[`)
		w.(http.Flusher).Flush()
		panic(http.ErrAbortHandler)
	})
	response, body := s.do(t, request{method: "GET", target: rangeOf("a")})
	checkError(t, "cut off", response, body, 502, "unavailable")
	s.behind.answerBy(evaluates)
	if _, body := s.do(t, request{method: "GET", target: rangeOf("a")}); body != matrixOf(`a{tenant="a"}`, 1700000000, 1700005400, 600) {
		t.Error(body)
	}
}

// An answer that is too large for the cache passes, and the query is not asked in parts for a while.
func TestLargeParts(t *testing.T) {
	s := serveInParts(t, fixed("a"), evaluates)
	s.front.MaxAnswer = 100
	for _, asked := range []int{2, 1} {
		response, body := s.do(t, request{method: "GET", target: rangeOf("a")})
		found := len(s.behind.all())
		if body != matrixOf(`a{tenant="a"}`, 1700000000, 1700005400, 600) || found < asked || asked == 1 && found != 1 {
			t.Errorf("asked %d times: %d %s", found, response.StatusCode, body)
		}
	}
}

// A server that says so has its answers not kept.
func TestPartsThatAreNotStored(t *testing.T) {
	s := serveInParts(t, fixed("a"), func(w http.ResponseWriter, r *http.Request) {
		w.Header().Set("Cache-Control", "no-store")
		evaluates(w, r)
	})
	for i := 0; i < 2; i++ {
		s.behind.all()
		if _, body := s.do(t, request{method: "GET", target: rangeOf("a")}); body != matrixOf(`a{tenant="a"}`, 1700000000, 1700005400, 600) {
			t.Error(body)
		}
	}
	if asked := s.behind.all(); len(asked) != 1 {
		t.Errorf("%v", asked)
	}
}

// One client that leaves takes the question along only if no other waits.
func TestClientsOfOnePart(t *testing.T) {
	release := make(chan struct{})
	begun := make(chan struct{}, 9)
	s := serveInParts(t, fixed("a"), func(w http.ResponseWriter, r *http.Request) {
		begun <- struct{}{}
		select {
		case <-release:
			evaluates(w, r)
		case <-r.Context().Done():
		}
	})
	leaving := &http.Client{Timeout: 300 * time.Millisecond}
	var all sync.WaitGroup
	all.Add(2)
	go func() {
		defer all.Done()
		if response, err := leaving.Get(s.URL + rangeOf("a")); err == nil {
			response.Body.Close()
			t.Error("the client did not leave")
		}
	}()
	<-begun
	go func() {
		defer all.Done()
		if _, body := s.do(t, request{method: "GET", target: rangeOf("a")}); body != matrixOf(`a{tenant="a"}`, 1700000000, 1700005400, 600) {
			t.Error(body)
		}
	}()
	time.Sleep(time.Second)
	close(release)
	all.Wait()
	if asked := s.behind.all(); len(asked) != 2 {
		t.Errorf("%v", asked)
	}
}
