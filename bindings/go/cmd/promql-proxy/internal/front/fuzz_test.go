package front

import (
	"bufio"
	"fmt"
	"net/http"
	"net/http/httptest"
	"net/url"
	"regexp"
	"strings"
	"testing"

	"wellapron.example/promql"
)

const matcher = `tenant="team-a"`

var (
	queries   = regexp.MustCompile(`^/api/v1/(query|query_range|query_exemplars)$`)
	selectors = regexp.MustCompile(`^(/federate|/api/v1/(series|labels|label/[a-zA-Z_][a-zA-Z0-9_]*/values))$`)
	filtered  = regexp.MustCompile(`^/api/v1/(rules|alerts|targets/metadata)$`)
	harmless  = regexp.MustCompile(`^/api/v1/(format_query|parse_query|status/buildinfo)$`)
	others    = regexp.MustCompile(`^(time|timeout|stats|lookback_delta|limit|start|end|step|type|exclude_alerts|metric|match_target|rule_name\[\]|rule_group\[\]|file\[\])$`)
	passing   = regexp.MustCompile(`^(Accept|Accept-Encoding|User-Agent|Content-Type|Content-Length)$`)
)

// isEnforced says whether a text has the matcher in each selector: enforcing it once more changes nothing.
func isEnforced(text string) bool {
	again, err := promql.Enforce(text, matcher)
	return err == nil && again == text
}

// fault says what is wrong with what the server behind was asked.
func fault(asked question) string {
	texts := append(asked.parameters["query"], asked.parameters["match[]"]...)
	targets := asked.parameters["match_target"]
	switch {
	case harmless.MatchString(asked.path):
		return ""
	case len(targets) != 0 && asked.path != "/api/v1/targets/metadata" || len(targets) != 1 && asked.path == "/api/v1/targets/metadata":
		return "there is not one selector of targets"
	case queries.MatchString(asked.path) && (len(texts) != 1 || !asked.parameters.Has("query")):
		return "there is not one query"
	case selectors.MatchString(asked.path) && (len(texts) == 0 || asked.parameters.Has("query")):
		return "there is no selector"
	case filtered.MatchString(asked.path) && len(texts) != 0:
		return "there is a query"
	case !queries.MatchString(asked.path) && !selectors.MatchString(asked.path) && !filtered.MatchString(asked.path):
		return "there is no such path"
	}
	for _, text := range append(texts, targets...) {
		if !isEnforced(text) {
			return "a text is not enforced"
		}
	}
	for name := range asked.parameters {
		if name != "query" && name != "match[]" && !others.MatchString(name) {
			return "there is another parameter"
		}
	}
	for name := range asked.header {
		if !passing.MatchString(name) {
			return "there is another header"
		}
	}
	return ""
}

// Whatever bytes a client sends, the server behind is asked once at most, by a known path, and for enforced texts alone.
func FuzzRequests(f *testing.F) {
	behind := &prometheus{}
	server := httptest.NewServer(behind)
	f.Cleanup(server.Close)
	front := frontOf(f, server.URL, fixed("team-a"), &lines{})
	get, post := "GET", "POST"
	form := "Content-Type: " + formType + "\r\nContent-Length: 99"
	for _, path := range []string{"query", "query_range", "query_exemplars", "series", "labels", "label/job/values", "rules", "alerts", "metadata", "parse_query", "status/buildinfo", "x"} {
		f.Add(get, "/api/v1/"+path+"?query=foo&match[]=bar&time=1", "X-A: b", "")
		f.Add(get, "/api/v1/"+path, "Accept: text/plain", "")
		f.Add(post, "/api/v1/"+path+"?start=1", form, "query=foo%20or%20bar&step=1")
		f.Add(post, "/api/v1/"+path, "Transfer-Encoding: chunked\r\nContent-Type: "+formType, "b\r\nmatch[]=foo\r\n0\r\n\r\n")
	}
	f.Add(get, "/federate?match[]="+url.QueryEscape(`{a="b" or c=~"d.*",tenant!="team-a"}`), "Connection: upgrade", "")
	f.Add(get, "/api/v1/query?query="+url.QueryEscape(`sum(info(a, {b='c'})) by (d) / e[5m:1m] @ 1 # }`), form, "query=x")
	f.Fuzz(func(t *testing.T, method, target, header, body string) {
		text := method + " " + target + " HTTP/1.1\r\nHost: x\r\n" + header + "\r\n\r\n" + body
		request, err := http.ReadRequest(bufio.NewReader(strings.NewReader(text)))
		if err != nil {
			return
		}
		response := httptest.NewRecorder()
		front.ServeHTTP(response, request)
		asked := behind.all()
		if len(asked) > 1 {
			t.Fatalf("%q: asked %v", text, asked)
		}
		for _, it := range asked {
			if said := fault(it); said != "" {
				t.Errorf("%q: %s: %v", text, said, it)
			}
		}
		if len(asked) == 0 && response.Code < 400 {
			t.Errorf("%q: %s", text, fmt.Sprint(response.Code, response.Body))
		}
	})
}
