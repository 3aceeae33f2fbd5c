package front

import (
	"context"
	"net/http"
	"net/http/httptest"
	"net/url"
	"os"
	"os/exec"
	"reflect"
	"strings"
	"testing"
	"time"
)

const (
	asked = `sum(rate(foo[5m])) / count(bar{tenant="team-b"})`
	sent  = `sum(rate(foo{tenant="team-a"}[5m])) / count(bar{tenant="team-a",tenant="team-b"})`
)

func TestQueriesAreChanged(t *testing.T) {
	proxy := serve(t, fixed("team-a"), nil)
	for path, names := range map[string][]string{
		"/api/v1/query":           {"time", "timeout", "stats"},
		"/api/v1/query_range":     {"start", "end", "step", "timeout"},
		"/api/v1/query_exemplars": {"start", "end"},
	} {
		others := url.Values{}
		for _, name := range names {
			others.Set(name, "of "+name)
		}
		all := url.Values{"query": {asked}}
		for name, values := range others {
			all[name] = values
		}
		for _, it := range []request{
			{method: "GET", target: path + "?" + all.Encode()},
			{method: "GET", target: path + "?" + all.Encode(), contentType: formType, body: "query=other"},
			{method: "POST", target: path, contentType: formType, body: all.Encode()},
			{method: "POST", target: path, contentType: formType + "; charset=UTF-8", body: all.Encode()},
			{method: "POST", target: path + "?" + others.Encode(), contentType: formType, body: url.Values{"query": {asked}}.Encode()},
			{method: "POST", target: path + "?" + all.Encode()},
		} {
			response, body := proxy.do(t, it)
			if response.StatusCode != http.StatusOK || body != success {
				t.Fatalf("%v: %d %s", it, response.StatusCode, body)
			}
			wanted := url.Values{"query": {sent}}
			for name, values := range others {
				wanted[name] = values
			}
			if found := proxy.behind.one(t); found.path != path || found.method != it.method || !reflect.DeepEqual(found.parameters, wanted) {
				t.Errorf("%v: Prometheus was asked %v", it, found)
			}
		}
	}
}

func TestSelectorsAreChanged(t *testing.T) {
	proxy := serve(t, fixed("team-a"), nil)
	for path, methods := range map[string]string{
		"/api/v1/series": "GET POST", "/api/v1/labels": "GET POST", "/api/v1/label/job/values": "GET POST", "/api/v1/label/__name__/values": "GET POST",
		"/federate": "GET",
	} {
		for _, it := range []struct{ given, wanted []string }{
			{nil, []string{`{tenant="team-a"}`}},
			{[]string{"foo"}, []string{`foo{tenant="team-a"}`}},
			{[]string{"foo", `{job=~"a.*",tenant="team-b"}`}, []string{`foo{tenant="team-a"}`, `{job=~"a.*",tenant="team-a",tenant="team-b"}`}},
			{[]string{`{a="1" or b="2"}`, " foo # }"}, []string{`{a="1", tenant="team-a" or b="2", tenant="team-a"}`, `foo{tenant="team-a"}`}},
		} {
			given := url.Values{"match[]": it.given}.Encode()
			for _, method := range strings.Fields(methods) {
				sent := request{method: method, target: path + "?" + given}
				if method == "POST" {
					sent = request{method: method, target: path, contentType: formType, body: given}
				}
				response, body := proxy.do(t, sent)
				found := proxy.behind.one(t)
				if response.StatusCode != http.StatusOK || found.path != path || !reflect.DeepEqual(found.parameters, url.Values{"match[]": it.wanted}) {
					t.Errorf("%v: %d %s: Prometheus was asked %v", sent, response.StatusCode, body, found)
				}
			}
		}
	}
}

func TestSelectorsThatAreNone(t *testing.T) {
	proxy := serve(t, fixed("team-a"), nil)
	many := strings.Repeat("match[]=a&", 101)
	patterns := "match[]=" + strings.Repeat(url.QueryEscape(`{a=~"b{1000}"}`)+"&match[]=", 9) + "c"
	for query, wanted := range map[string]struct {
		status int
		said   string
	}{
		"match[]=":                       {400, "match[]: 1:1: "},
		"match[]={}":                     {400, "match[]: 1:1: vector selector must contain at least one non-empty matcher"},
		"match[]=(foo)":                  {400, "match[]: it is not a selector alone"},
		"match[]=sum(foo)":               {400, "match[]: it is not a selector alone"},
		"match[]=foo[5m]":                {400, "match[]: it is not a selector alone"},
		"match[]=foo+offset+5m":          {400, "match[]: it is not a selector alone"},
		"match[]=foo+@+1":                {400, "match[]: it is not a selector alone"},
		"match[]=foo+@+start()":          {400, "match[]: it is not a selector alone"},
		"match[]=a+or+b":                 {400, "match[]: it is not a selector alone"},
		"match[]=-foo":                   {400, "match[]: it is not a selector alone"},
		"match[]=1":                      {400, "match[]: it is not a selector alone"},
		"match[]=foo&match[]=foo}":       {400, "match[]: 1:4: "},
		"match[]=foo{&match[]=}":         {400, "match[]: 1:"},
		"match[]=foo&match=bar":          {400, `the parameter "match" is not passed on`},
		"match[]=foo&match%5B0%5D=bar":   {400, `the parameter "match[0]" is not passed on`},
		"match[]=foo&MATCH%5B%5D=bar":    {400, `the parameter "MATCH[]" is not passed on`},
		"match[]=foo&start=1&start=2":    {400, `there has to be one parameter "start"`},
		strings.TrimSuffix(many, "&"):    {422, "there are 101 selectors in match[], at most 100"},
		patterns:                         {422, "match[]: patterns are too large: "},
		"match[]=foo&query=bar":          {400, `the parameter "query" is not passed on`},
		"match[]=foo&start=1&tenant=b":   {400, `the parameter "tenant" is not passed on`},
		"match[]=foo&start=" + long(5e3): {400, `the parameter "start" has more than 4096 bytes`},
	} {
		kind := map[int]string{400: "bad_data", 422: "execution"}[wanted.status]
		response, body := proxy.do(t, request{method: "GET", target: "/api/v1/series?" + query})
		if said := checkError(t, query, response, body, wanted.status, kind); !strings.HasPrefix(said, wanted.said) {
			t.Errorf("%s: %s", query, said)
		}
	}
	if asked := proxy.behind.all(); len(asked) != 0 {
		t.Errorf("Prometheus was asked %v", asked)
	}
}

func long(count float64) string {
	return strings.Repeat("1", int(count))
}

func TestInfo(t *testing.T) {
	proxy := serve(t, fixed("team-a"), nil)
	response, body := proxy.do(t, request{method: "GET", target: "/api/v1/query?query=" + url.QueryEscape("info(foo, {bar='1'})")})
	wanted := `info(foo{tenant="team-a"}, {bar="1",tenant="team-a"})`
	if found := proxy.behind.one(t); response.StatusCode != http.StatusOK || found.parameters.Get("query") != wanted {
		t.Errorf("%d %s: Prometheus was asked %v", response.StatusCode, body, found)
	}
	response, body = proxy.do(t, request{method: "GET", target: "/api/v1/query?query=sum(info(foo))"})
	said := checkError(t, "info", response, body, http.StatusUnprocessableEntity, "execution")
	if said != "info without a selector reads series that no matcher limits" {
		t.Error(said)
	}
}

// A proxy whose threads have little stack says that it failed, and not that the query is wrong.
func TestSmallStack(t *testing.T) {
	const inside = "PROMQL_TEST_SMALL_STACK"
	if os.Getenv(inside) == "" {
		again := exec.Command("sh", "-c", `ulimit -s 512 && exec "$0" -test.run='^TestSmallStack$'`, os.Args[0])
		again.Env = append(os.Environ(), inside+"=1")
		if said, err := again.CombinedOutput(); err != nil {
			t.Errorf("%v: %s", err, said)
		}
		return
	}
	behind := &prometheus{}
	server := httptest.NewServer(behind)
	defer server.Close()
	proxy := before(t, server.URL, byHeader())
	response, body := proxy.do(t, request{method: "GET", target: "/api/v1/query?query=foo", header: http.Header{"X-Tenant": {"team-a"}}})
	checkError(t, "a small stack", response, body, http.StatusInternalServerError, "internal")
	if asked := behind.all(); len(asked) != 0 {
		t.Errorf("Prometheus was asked %v", asked)
	}
}

func TestHeadersThatPass(t *testing.T) {
	proxy := serve(t, byHeader(), nil)
	header := http.Header{}
	for name, value := range map[string]string{
		"X-Scope-OrgID": "team-b", "Thanos-Tenant": "team-b", "X-Original-URL": "/api/v1/series", "X-Rewrite-Url": "/federate",
		"Authorization": "Bearer x", "Cookie": "user=team-b", "X-Forwarded-For": "10.0.0.1", "X-Tenant": "team-a",
		"X-Http-Method-Override": "PUT", "Range": "bytes=0-1", "Expect": "100-continue", "Accept": "application/json", "Accept-Encoding": "gzip",
	} {
		header.Set(name, value)
	}
	response, _ := proxy.do(t, request{method: "GET", target: "/api/v1/query?query=foo", header: header})
	wanted := http.Header{"Accept": {"application/json"}, "User-Agent": {"promql-proxy"}, "Accept-Encoding": {"gzip"}}
	if found := proxy.behind.one(t); !reflect.DeepEqual(found.header, wanted) {
		t.Errorf("Prometheus was sent %v", found.header)
	}
	response.Header.Del("Date")
	wanted = http.Header{
		"Content-Type": {"application/json"}, "Content-Length": {"20"}, "Vary": {"X-Tenant", "Accept-Encoding"}, "X-Content-Type-Options": {"nosniff"},
	}
	if !reflect.DeepEqual(response.Header, wanted) {
		t.Errorf("the client was sent %v", response.Header)
	}
	response, _ = proxy.do(t, request{method: "GET", target: "/api/v1/query"})
	if found := response.Header["Vary"]; response.StatusCode != http.StatusBadRequest || !reflect.DeepEqual(found, []string{"X-Tenant"}) {
		t.Errorf("%d %v", response.StatusCode, found)
	}
	proxy.do(t, request{method: "GET", target: "/api/v1/alerts", header: header})
	if found := proxy.behind.one(t); !reflect.DeepEqual(found.header, http.Header{"User-Agent": {"promql-proxy"}}) {
		t.Errorf("of an answer that is filtered Prometheus was sent %v", found.header)
	}
}

// A client that leaves takes its query with it.
func TestClientLeaves(t *testing.T) {
	for _, it := range []request{
		{method: "GET", target: "/api/v1/query?query=foo"},
		{method: "GET", target: "/api/v1/query?query=foo", body: "query=bar"},
		{method: "POST", target: "/api/v1/query", body: "query=foo"},
		{method: "GET", target: "/api/v1/rules"},
	} {
		leave(t, it)
	}
}

// leave sends a request, and leaves when the server behind is asked.
func leave(t *testing.T, it request) {
	begun, ended := make(chan struct{}), make(chan struct{})
	proxy := serve(t, fixed("team-a"), func(w http.ResponseWriter, r *http.Request) {
		close(begun)
		<-r.Context().Done()
		close(ended)
	})
	ctx, leave := context.WithCancel(context.Background())
	request, err := http.NewRequestWithContext(ctx, it.method, proxy.URL+it.target, strings.NewReader(it.body))
	if err != nil {
		t.Fatal(err)
	}
	request.Header.Set("Content-Type", formType)
	go func() {
		<-begun
		leave()
	}()
	if response, err := http.DefaultClient.Do(request); err == nil {
		response.Body.Close()
		t.Fatal("the request was answered")
	}
	select {
	case <-ended:
	case <-time.After(10 * time.Second):
		t.Errorf("%v: the query went on", it)
	}
}
