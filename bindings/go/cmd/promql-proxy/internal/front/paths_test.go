package front

import (
	"errors"
	"fmt"
	"net/http"
	"net/url"
	"reflect"
	"sort"
	"strings"
	"testing"

	"wellapron.example/promql"
	"wellapron.example/promql/cmd/promql-proxy/internal/endpoint"
)

// get asks a proxy for a path with these parameters.
func (s *served) get(t *testing.T, path string, parameters url.Values) (*http.Response, string) {
	t.Helper()
	return s.do(t, request{method: "GET", target: path + "?" + parameters.Encode()})
}

// A query that names the tenant's label in another way is an error, and one that names it as the tenant does is none.
func TestConflicts(t *testing.T) {
	for _, it := range []struct {
		tenants     []string
		own, others []string
	}{
		{
			[]string{"team-a"},
			[]string{"foo", `foo{tenant="team-a"}`, `foo{job="tenant"}`, "sum by (tenant) (foo)", `label_replace(foo, "tenant", "b", "", "")`, `foo{job!="b"}`},
			[]string{
				`foo{tenant="team-b"}`, `foo{tenant=~"team-a"}`, `foo{tenant!="team-b"}`, `foo{tenant!~"team-b"}`, `foo{tenant=""}`, `foo{tenant="team-a",tenant="b"}`,
				`sum(rate(foo{tenant="b"}[5m]))`, `max_over_time(foo{tenant="b"}[5m:1m])`, `up + on () foo{tenant="b"}`, `foo{a="b" or tenant="c"}`, `foo{"tenant"="b"}`,
				`info(foo, {tenant="b"})`, `topk(scalar(foo{tenant="b"}), up)`, `absent(foo{tenant="b"})`,
			},
		},
		{
			[]string{"team-a", "b.c"},
			[]string{"foo", `foo{tenant="team-a"}`, `foo{tenant="b.c"}`, `foo{tenant=~"team-a|b\\.c"}`},
			[]string{`foo{tenant=~"team-a"}`, `foo{tenant=~"b\\.c|team-a"}`, `foo{tenant=~".*"}`, `foo{tenant="bxc"}`, `foo{tenant!="team-a"}`},
		},
	} {
		proxy := serve(t, fixed(it.tenants...), nil)
		proxy.front.RejectConflicts = true
		for _, text := range it.own {
			if response, body := proxy.get(t, "/api/v1/query", url.Values{"query": {text}}); response.StatusCode != http.StatusOK {
				t.Errorf("%v %s: %d %s", it.tenants, text, response.StatusCode, body)
			}
		}
		if response, body := proxy.get(t, "/api/v1/series", nil); response.StatusCode != http.StatusOK {
			t.Errorf("%v: %d %s", it.tenants, response.StatusCode, body)
		}
		proxy.behind.all()
		for _, text := range it.others {
			response, body := proxy.get(t, "/api/v1/query", url.Values{"query": {text}})
			said := checkError(t, text, response, body, http.StatusBadRequest, "bad_data")
			if said != "the matcher of tenant is not one of the tenant's" {
				t.Errorf("%v %s: %s", it.tenants, text, said)
			}
		}
		proxy.checkAsked(t, "conflicts", 0)
	}
	proxy := serve(t, fixed("team-a"), nil)
	proxy.front.RejectConflicts = true
	for _, path := range []string{"/api/v1/series", "/api/v1/labels", "/api/v1/label/a/values", "/federate", rules} {
		response, body := proxy.get(t, path, url.Values{"match[]": {"foo", `{tenant="team-b"}`}})
		checkError(t, path, response, body, http.StatusBadRequest, "bad_data")
	}
	proxy.checkAsked(t, "selectors in conflict", 0)
}

// nested returns a query in so many parentheses.
func nested(query string, levels int) string {
	return strings.Repeat("(", levels) + query + strings.Repeat(")", levels)
}

// The selectors of shared metrics stay as they were asked, and no others do.
func TestSharedMetrics(t *testing.T) {
	proxy := serve(t, fixed("team-a"), nil)
	proxy.front.Shared = []string{"kube_info", "node:cpu"}
	for text, wanted := range map[string]string{
		"kube_info":                       "kube_info",
		"foo":                             `foo{tenant="team-a"}`,
		`kube_info{tenant="team-b"}`:      `kube_info{tenant="team-b"}`,
		`kube_info{tenant="team-a"}`:      `kube_info{tenant="team-a"}`,
		"rate(node:cpu[5m]) / kube_info2": `rate(node:cpu[5m]) / kube_info2{tenant="team-a"}`,
		`foo * on (node) group_left (pod) kube_info{a="b"} # }`:                          `foo{tenant="team-a"} * on (node) group_left (pod) kube_info{a="b"}`,
		`{__name__="kube_info"}`:                                                         `{__name__="kube_info",tenant="team-a"}`,
		`{__name__=~"kube_info|foo"}`:                                                    `{__name__=~"kube_info|foo",tenant="team-a"}`,
		`{"kube_info"}`:                                                                  `{__name__="kube_info",tenant="team-a"}`,
		`max_over_time((kube_info + foo)[5m:1m] offset 1m)`:                              `max_over_time((kube_info + foo{tenant="team-a"})[5m:1m] offset 1m)`,
		`info(foo, {a="b"}) + kube_info`:                                                 `info(foo{tenant="team-a"}, {a="b",tenant="team-a"}) + kube_info`,
		`label_replace(foo, "__name__", "kube_info", "", "")`:                            `label_replace(foo{tenant="team-a"}, "__name__", "kube_info", "", "")`,
		`kube_info{job="x" or job="y"} + foo`:                                            `kube_info{job="x" or job="y"} + foo{tenant="team-a"}`,
		`count_values("kube_info", bar) unless kube_info @ end() + {tenant="kube_info"}`: `count_values("kube_info", bar{tenant="team-a"}) unless kube_info @ end() + {tenant="kube_info",tenant="team-a"}`,
	} {
		response, body := proxy.get(t, "/api/v1/query", url.Values{"query": {text}})
		if found := proxy.behind.all(); response.StatusCode != http.StatusOK || len(found) != 1 || found[0].parameters.Get("query") != wanted {
			t.Errorf("%s: %d %s: Prometheus was asked %v", text, response.StatusCode, body, found)
		}
	}
	for _, it := range []struct{ given, wanted []string }{
		{nil, []string{`{tenant="team-a"}`, "kube_info", "node:cpu"}},
		{[]string{"kube_info", "foo", `{a="b"}`}, []string{"kube_info", `foo{tenant="team-a"}`, `{a="b",tenant="team-a"}`}},
	} {
		proxy.get(t, "/api/v1/series", url.Values{"match[]": it.given})
		if found := proxy.behind.one(t).parameters["match[]"]; !reflect.DeepEqual(found, it.wanted) {
			t.Errorf("%v: Prometheus was asked %v", it.given, found)
		}
	}
	proxy.front.RejectConflicts = true
	for text, status := range map[string]int{`kube_info{tenant="b"}`: 200, `kube_info + foo{tenant="b"}`: 400, "info(kube_info)": 422, nested("kube_info", 100): 200, nested("kube_info", 400): 422, nested("foo", 400): 200} {
		if response, body := proxy.get(t, "/api/v1/query", url.Values{"query": {text}}); response.StatusCode != status {
			t.Errorf("%s: %d %s", text, response.StatusCode, body)
		}
	}
	for _, names := range [][]string{{""}, {"a b"}, {"a{}"}, {"sum(a)"}, {"1"}, {"a", "a"}, {"inf"}, {`a{job="x" or __name__="b"}`}, {`{"a"}`}, {"a[5m]"}} {
		if err := endpoint.CheckShared(names); err == nil {
			t.Errorf("%q can be shared", names)
		}
	}
}

// Rules by match[], as a Prometheus has it that knows it: the ones whose labels one of the selectors selects.
func TestRulesBySelectors(t *testing.T) {
	const answer = `{"status":"success","data":{"groups":[{"name":"g","rules":[
		{"name":"one","labels":{"tenant":"team-a","severity":"page"}},
		{"name":"two","labels":{"tenant":"team-a","severity":"ticket","line":"a\nb"},"alerts":[{"labels":{"tenant":"team-a"},"value":"alert"}]},
		{"name":"secret","labels":{"tenant":"team-b","severity":"page"}}]}]}}`
	proxy := serve(t, fixed("team-a"), said(200, nil, answer))
	for _, it := range []struct {
		selectors []string
		wanted    string
	}{
		{nil, "one two"},
		{[]string{`{severity="page"}`}, "one"},
		{[]string{`{severity!="page",tenant=~".+"}`}, "two"},
		{[]string{`{severity=~"p.*|tick"}`}, "one"},
		{[]string{`{severity!~"page|x",tenant="team-a"}`}, "two"},
		{[]string{`{line=~"a.b"}`}, "two"},
		{[]string{`{line="",tenant=~".+"}`}, "one"},
		{[]string{`{severity="page"}`, `{line!="",tenant="team-a"}`}, "one two"},
		{[]string{`{severity="page" or line!=""}`}, "one two"},
		{[]string{`{tenant="team-b"}`}, ""},
		{[]string{`{tenant!="team-a",severity="page"}`, "one", `{__name__="one"}`}, ""},
	} {
		_, body := proxy.get(t, rules, url.Values{"match[]": it.selectors})
		if asked := proxy.behind.one(t).parameters; len(asked) != 0 {
			t.Errorf("Prometheus was asked %v", asked)
		}
		var found []string
		for _, name := range []string{"one", "secret", "two"} {
			if strings.Contains(body, `"name":"`+name+`"`) {
				found = append(found, name)
			}
		}
		if strings.Join(found, " ") != it.wanted || strings.Contains(body, `"alert"`) != strings.Contains(it.wanted, "two") {
			t.Errorf("%q: %s", it.selectors, body)
		}
	}
	for selector, status := range map[string]int{"": 400, "{}": 400, `{severity!="page"}`: 400, "sum(a)": 400, "a offset 1m": 400, `{a=~"("}`: 400, `{a=~"b{9999}"}`: 422, "info(a)": 422} {
		if response, body := proxy.get(t, rules, url.Values{"match[]": {selector}}); response.StatusCode != status {
			t.Errorf("%q: %d %s", selector, response.StatusCode, body)
		}
	}
	proxy.checkAsked(t, "no selectors", 0)
}

// Patterns that take long, for many rules, end in an error, and not in minutes.
func TestRulesBySlowPatterns(t *testing.T) {
	var rules strings.Builder
	for i := 0; i < 5000; i++ {
		fmt.Fprintf(&rules, `{"labels":{"tenant":"team-a","x":"%d%s"}},`, i, strings.Repeat("a", 40))
	}
	answer := `{"status":"success","data":{"groups":[{"name":"g","rules":[` + strings.TrimSuffix(rules.String(), ",") + `]}]}}`
	proxy := serve(t, fixed("team-a"), said(200, nil, answer))
	for pattern, status := range map[string]int{".*a": 200, ".*.*.*.*.*b": 200, "(.*){0,700}x": 422, "[a-z0-9]{690}b": 422} {
		response, body := proxy.get(t, "/api/v1/rules", url.Values{"match[]": {`{x=~"` + pattern + `"}`}})
		if response.StatusCode != status {
			t.Errorf("%s: %d %.100s", pattern, response.StatusCode, body)
		}
		if status == 422 && checkError(t, pattern, response, body, status, "execution") != "match[]: the patterns are too large for so many rules" {
			t.Error(body)
		}
	}
}

// Metadata are those of the tenant's targets.
func TestMetadata(t *testing.T) {
	const answer = `{"status":"success","data":[
		{"target":{"tenant":"team-a"},"metric":"b","type":"gauge","help":"<b>","unit":""},
		{"target":{"tenant":"team-a","x":"y"},"metric":"b","type":"gauge","help":"<b>","unit":""},
		{"target":{"tenant":"team-a"},"metric":"b","type":"counter","help":"other","unit":"s"},
		{"target":{"tenant":"team-a"},"metric":"a","type":"gauge","help":"a","unit":""},
		{"target":{"tenant":"team-b"},"metric":"secret","type":"gauge","help":"secret","unit":""},
		{"target":{},"metric":"secret","type":"gauge","help":"secret","unit":""},{"metric":"secret"}],"warnings":["secret"]}`
	const a, b = `"a":[{"type":"gauge","help":"a","unit":""}]`, `"b":[{"type":"gauge","help":"\u003cb\u003e","unit":""}`
	const both = b + `,{"type":"counter","help":"other","unit":"s"}]`
	proxy := serve(t, fixed("team-a"), said(200, nil, answer))
	for parameters, wanted := range map[string]string{
		"": a + "," + both, "limit=1": a, "limit=0": "", "limit=-1": a + "," + both, "limit_per_metric=1": a + "," + b + "]", "limit=9": a + "," + both,
	} {
		_, body := proxy.do(t, request{method: "GET", target: "/api/v1/metadata?" + parameters})
		found := proxy.behind.one(t)
		if body != `{"data":{`+wanted+`},"status":"success"}` {
			t.Errorf("%s: %s", parameters, body)
		}
		asked := url.Values{"match_target": {`{tenant="team-a"}`}}
		if found.path != "/api/v1/targets/metadata" || !reflect.DeepEqual(found.parameters, asked) {
			t.Errorf("%s: Prometheus was asked %v", parameters, found)
		}
	}
	for _, target := range []string{"limit=a", "limit_per_metric=1.5", "limit=1&limit=2", "match_target={}", "match[]=a", "metric=a&metric=b"} {
		response, body := proxy.do(t, request{method: "GET", target: "/api/v1/metadata?" + target})
		checkError(t, target, response, body, http.StatusBadRequest, "bad_data")
	}
	proxy.checkAsked(t, "metadata", 0)
	// Of one metric, the answer does not say which.
	one := serve(t, fixed("team-a", "b"), said(200, nil, `{"status":"success","data":[{"target":{"tenant":"b"},"type":"gauge","help":"h","unit":""}]}`))
	_, body := one.do(t, request{method: "GET", target: "/api/v1/metadata?metric=up"})
	asked := one.behind.one(t).parameters
	if body != `{"data":{"up":[{"type":"gauge","help":"h","unit":""}]},"status":"success"}` || asked.Get("match_target") != `{tenant=~"team-a|b"}` || asked.Get("metric") != "up" {
		t.Errorf("%s: %v", body, asked)
	}
	isJSON := http.Header{"Content-Type": {"application/json"}}
	none := serve(t, fixed("team-a"), said(404, isJSON, `{"status":"error","errorType":"not_found","error":"specified metadata not found"}`))
	if response, body := none.do(t, request{method: "GET", target: "/api/v1/metadata"}); response.StatusCode != 200 || body != `{"data":{},"status":"success"}` {
		t.Errorf("%d %s", response.StatusCode, body)
	}
	other := serve(t, fixed("team-a"), said(404, nil, "404 page not found"))
	response, body := other.do(t, request{method: "GET", target: "/api/v1/metadata"})
	checkError(t, "a server without metadata", response, body, http.StatusNotFound, "not_found")
}

// What the target is known to reject passes, and the client gets the answer of the Prometheus.
func TestWhatTheTargetRejects(t *testing.T) {
	answer := `{"status":"error","errorType":"bad_data","error":"of the Prometheus"}`
	proxy := serve(t, fixed("team-a"), said(400, http.Header{"Content-Type": {"application/json"}}, answer))
	query, changed := `foo{a="1" or b="2"}`, `foo{a="1", tenant="team-a" or b="2", tenant="team-a"}`
	if err := promql.Check(query); !errors.Is(err, promql.ErrRefused) {
		t.Fatalf("%s: %v", query, err)
	}
	for path, wanted := range map[string]string{
		"/api/v1/query": changed, "/api/v1/query_range": changed, "/api/v1/query_exemplars": changed, "/api/v1/format_query": query, "/api/v1/parse_query": query,
	} {
		response, body := proxy.get(t, path, url.Values{"query": {query}})
		if found := proxy.behind.one(t); response.StatusCode != 400 || body != answer || found.parameters.Get("query") != wanted {
			t.Errorf("%s: %d %s: Prometheus was asked %v", path, response.StatusCode, body, found)
		}
	}
}

// A request that reads no series passes as it is, where it is a query; what is no query does not.
func TestRequestsWithoutSeries(t *testing.T) {
	proxy := serve(t, fixed("team-a"), nil)
	for _, path := range []string{"/api/v1/format_query", "/api/v1/parse_query"} {
		for _, method := range []string{"GET", "POST"} {
			sent := request{method: method, target: path + "?query=foo%2Bbar"}
			if method == "POST" {
				sent = request{method: method, target: path, contentType: formType, body: "query=foo%2Bbar"}
			}
			response, body := proxy.do(t, sent)
			found := proxy.behind.one(t)
			if response.StatusCode != http.StatusOK || found.path != path || found.method != method || found.parameters.Encode() != "query=foo%2Bbar" {
				t.Errorf("%v: %d %s: Prometheus was asked %v", sent, response.StatusCode, body, found)
			}
		}
		for query, status := range map[string]int{
			"": 400, "query=a&query=b": 400, "query=)": 400, "query=a&time=1": 400, "query=a&match[]=b": 400, "query=" + strings.Repeat("a", 32769): 422,
			"query=" + strings.Repeat("(", 600) + "a" + strings.Repeat(")", 600): 400,
		} {
			if response, body := proxy.do(t, request{method: "GET", target: path + "?" + query}); response.StatusCode != status {
				t.Errorf("%s %.50s: %d %s", path, query, response.StatusCode, body)
			}
		}
	}
	response, body := proxy.do(t, request{method: "GET", target: "/api/v1/status/buildinfo"})
	if found := proxy.behind.one(t); response.StatusCode != http.StatusOK || body != success || found.path != "/api/v1/status/buildinfo" || len(found.parameters) != 0 {
		t.Errorf("%d %s: Prometheus was asked %v", response.StatusCode, body, found)
	}
	response, body = proxy.do(t, request{method: "GET", target: "/api/v1/status/buildinfo?x=1"})
	checkError(t, "buildinfo", response, body, http.StatusBadRequest, "bad_data")
	proxy.checkAsked(t, "no queries", 0)
}

// The values of a label are asked for by POST, too, and Prometheus has GET for them.
func TestLabelValuesByPost(t *testing.T) {
	proxy := serve(t, fixed("team-a"), nil)
	proxy.do(t, request{method: "POST", target: "/api/v1/label/job/values?start=1", contentType: formType, body: "match[]=foo&match[]=bar&end=2"})
	found := proxy.behind.one(t)
	matches := found.parameters["match[]"]
	sort.Strings(matches)
	if found.method != "GET" || !reflect.DeepEqual(matches, []string{`bar{tenant="team-a"}`, `foo{tenant="team-a"}`}) || found.parameters.Get("end") != "2" {
		t.Errorf("Prometheus was asked %v", found)
	}
}
