package front

import (
	"fmt"
	"net/http"
	"net/url"
	"strconv"
	"strings"
	"testing"
)

// checkAsked says where the server behind was asked for more than team-a's series, so many times.
func (s *served) checkAsked(t *testing.T, name string, wanted int) {
	t.Helper()
	asked := s.behind.all()
	if len(asked) != wanted {
		t.Errorf("%s: Prometheus was asked %d times: %v", name, len(asked), asked)
	}
	for _, it := range asked {
		query := it.parameters.Get("query")
		if it.path != "/api/v1/query" || len(it.parameters["query"]) != 1 || !strings.Contains(query, `tenant="team-a"`) || strings.Contains(query, "team-b") {
			t.Errorf("%s: Prometheus was asked %v", name, it)
		}
		if text := fmt.Sprint(it.header); strings.Contains(text, "team") {
			t.Errorf("%s: Prometheus was sent %s", name, text)
		}
	}
}

func TestParametersThatAreRefused(t *testing.T) {
	proxy := serve(t, fixed("team-a"), nil)
	const path = "/api/v1/query"
	for query, said := range map[string]string{
		"query=rate(foo)":       "1:6: expected type matrix in call to function 'rate', got vector",
		"query=1+%2B":           "1:4: invalid promql query",
		"":                      `there has to be one parameter "query"`,
		"query=a&query=b":       `there has to be one parameter "query"`,
		"query=a&%71uery=b":     `there has to be one parameter "query"`,
		"query=a&qu%65ry=b":     `there has to be one parameter "query"`,
		"query=a;query=b":       "the address: invalid semicolon separator in query",
		"query=a&query%5B%5D=b": `the parameter "query[]" is not passed on`,
		"query=a&query%00=b":    `the parameter "query\x00" is not passed on`,
		"query=a&+query=b":      `the parameter " query" is not passed on`,
		"query=a&Query=b":       `the parameter "Query" is not passed on`,
		"query=a&match%5B%5D=b": `the parameter "match[]" is not passed on`,
		"query=a&tenant=team-b": `the parameter "tenant" is not passed on`,
		"query=a&=b":            `the parameter "" is not passed on`,
		"query=a&" + strings.Repeat("b", 5000) + "=": `the parameter "` + strings.Repeat("b", 100) + `.." is not passed on`,
		"query=a&time=1&time=2":                      `there has to be one parameter "time"`,
		"query=a&timeout=1s&t%69meout=1h":            `there has to be one parameter "timeout"`,
		"query=a&time=" + long(5000):                 `the parameter "time" has more than 4096 bytes`,
		"query=a&time=%ff":                           "the address: a parameter is not UTF-8",
		"query=a&%c3=%a9":                            "the address: a parameter is not UTF-8",
		"query=%c3&query=%a9":                        "the address: a parameter is not UTF-8",
		"query=a&z=1&b=1":                            `the parameter "b" is not passed on`,
		"query=a%ff":                                 "the address: a parameter is not UTF-8",
		"query=a%":                                   `the address: invalid URL escape "%"`,
		"query=%u0061":                               `the address: invalid URL escape "%u0"`,
		"query=a%00":                                 "1:2: ",
		"query=%00":                                  "1:1: ",
		"query=a&" + strings.Repeat("b&", 1000):      "the address: there are more than 1000 parameters",
	} {
		response, body := proxy.do(t, request{method: "GET", target: path + "?" + query})
		if found := checkError(t, query, response, body, http.StatusBadRequest, "bad_data"); !strings.HasPrefix(found, said) {
			t.Errorf("%.100s: %s", query, found)
		}
	}
	proxy.checkAsked(t, "refused parameters", 0)
}

func TestBodiesThatAreRefused(t *testing.T) {
	proxy := serve(t, fixed("team-a"), nil)
	multipart := "--x\r\nContent-Disposition: form-data; name=\"query\"\r\n\r\nfoo\r\n--x--\r\n"
	encoded := http.Header{"Content-Encoding": {"gzip"}}
	type said struct {
		status  int
		kind    string
		message string
	}
	const none = "the body is not application/x-www-form-urlencoded"
	for name, it := range map[string]struct {
		request
		said
	}{
		"two queries":   {request{target: "?query=a", contentType: formType, body: "query=b"}, said{400, "bad_data", `there has to be one parameter "query"`}},
		"two in it":     {request{contentType: formType, body: "query=a&%71uery=b"}, said{400, "bad_data", `there has to be one parameter "query"`}},
		"a semicolon":   {request{contentType: formType, body: "query=a;query=b"}, said{400, "bad_data", "the body: invalid semicolon separator in query"}},
		"parts":         {request{contentType: "multipart/form-data; boundary=x", body: multipart}, said{400, "bad_data", none}},
		"JSON":          {request{contentType: "application/json", body: `{"query":"a"}`}, said{400, "bad_data", none}},
		"text":          {request{target: "?query=a", contentType: "text/plain", body: "query=b"}, said{400, "bad_data", none}},
		"no type":       {request{target: "?query=a", body: "query=b"}, said{400, "bad_data", none}},
		"two types":     {request{target: "?query=a", body: "query=b", header: http.Header{"Content-Type": {"text/plain", formType}}}, said{400, "bad_data", none}},
		"a second type": {request{target: "?query=a", body: "query=b", header: http.Header{"Content-Type": {formType, "text/plain"}}}, said{400, "bad_data", none}},
		"a bad type":    {request{target: "?query=a", contentType: formType + "; x=\"", body: "query=b"}, said{400, "bad_data", none}},
		"gzip":          {request{contentType: formType, body: "\x1f\x8b\x08\x00", header: encoded}, said{400, "bad_data", "the body has a Content-Encoding"}},
		"said gzip":     {request{contentType: formType, body: "query=a", header: encoded}, said{400, "bad_data", "the body has a Content-Encoding"}},
		"gzip, silent":  {request{contentType: formType, body: "\x1f\x8b\x08\x00"}, said{400, "bad_data", "the body: a parameter is not UTF-8"}},
		"a long one":    {request{contentType: formType, body: "query=" + strings.Repeat("a", 1<<20)}, said{413, "bad_data", "the body has more than 1048576 bytes"}},
		"a long query": {
			request{contentType: formType, body: "query=" + strings.Repeat("a", 32762)},
			said{422, "execution", "the enforced query is not within the limits: query is too long: 32779 bytes, at most 32768"},
		},
		"large patterns": {
			request{contentType: formType, body: url.Values{"query": {`a{b=~"c{3000}"}`}}.Encode()},
			said{422, "execution", "1:6: patterns are too large: 39013, at most 16000"},
		},
	} {
		it.request.method, it.request.target = "POST", "/api/v1/query"+it.request.target
		response, body := proxy.do(t, it.request)
		if found := checkError(t, name, response, body, it.status, it.kind); found != it.message {
			t.Errorf("%s: %s", name, found)
		}
	}
	proxy.checkAsked(t, "refused bodies", 0)
}

func TestPathsThatAreRefused(t *testing.T) {
	proxy := serve(t, fixed("team-a"), nil)
	for _, path := range strings.Fields(`
		/ // /api /api/v1 /api/v1/ /graph /metrics /version /config /-/quit /-/reload /-/healthy /debug/pprof/heap /static/x
		/api/v1/admin/tsdb/delete_series /api/v1/admin/tsdb/snapshot /api/v1/admin/tsdb/clean_tombstones
		/api/v1/status/config /api/v1/status/flags /api/v1/status/tsdb /api/v1/status/buildinfo/ /api/v1/status/runtimeinfo /api/v1/status/walreplay
		/api/v1/targets /api/v1/targets/metadata /api/v1/metadata/ /api/v1/alertmanagers /api/v1/read /api/v1/write /api/v1/format_query/
		/api/v1/scrape_pools /api/v1/parse_query/x /api/v1/status /api/v1/otlp/v1/metrics /api/v2/alerts /api/v2/silences
		/api/v1/query/ //api/v1/query /api/v1//query /api/v1/./query /api/v1/label/../query /./api/v1/query /x/../api/v1/query
		/api/v1/%71uery /api/v1/query%2f /api/v1%2fquery /api/v1/query%00 /api/v1/query%3f /api/v1/query%23 /api/v1/query; /api/v1/query;x=1
		/api/v1/query%20 /api/v1/query%0a /API/V1/QUERY /api/v1/Query /api/v1/query.json /api/v1/query\x /api\v1\query /api/v1/qu%65ry
		/api/v1/label /api/v1/label/ /api/v1/label/values /api/v1/label//values /api/v1/label/a/b/values /api/v1/label/a/values/
		/api/v1/label/a%2fb/values /api/v1/label/%61/values /api/v1/label/../values /api/v1/label/../query/values /api/v1/label/./values
		/api/v1/label/1a/values /api/v1/label/a-b/values /api/v1/label/a.b/values /api/v1/label/%c3%a9/values /api/v1/label/a%00/values
		/api/v1/label/a%0a/values /api/v1/label/..%2f..%2fstatus%2fconfig%3f/values /api/v1/label/a/../../status/config/values
		/api/v1/label/a/values/../../../status/config /api/v1/label/values/values/values /federate/ /federate/../api/v1/status/config /%66ederate
		/federate/x /prometheus/api/v1/query /api/v1/series/ /api/v1/rules/ /api/v1/rules/x /api/v1/alerts/ /api/v1/query_range/ /api/v1/query_exemplars/
	`) {
		response, body := proxy.raw(t, "GET "+path+"?query=foo HTTP/1.1\r\nHost: x\r\n\r\n")
		if said := checkError(t, path, response, body, http.StatusNotFound, "not_found"); said != "no such path" {
			t.Errorf("%s: %s", path, said)
		}
	}
	proxy.checkAsked(t, "refused paths", 0)
}

func TestMethodsThatAreRefused(t *testing.T) {
	proxy := serve(t, fixed("team-a"), nil)
	get, both := "GET", "GET, POST"
	for path, allow := range map[string]string{
		"/api/v1/query": both, "/api/v1/query_range": both, "/api/v1/query_exemplars": both, "/api/v1/series": both, "/api/v1/labels": both,
		"/api/v1/label/a/values": both, "/api/v1/format_query": both, "/api/v1/parse_query": both, "/federate": get, "/api/v1/metadata": get,
		"/api/v1/status/buildinfo": get, "/api/v1/rules": get, "/api/v1/alerts": get,
	} {
		for _, method := range []string{"PUT", "DELETE", "HEAD", "OPTIONS", "PATCH", "TRACE", "get", "Get", "PROPFIND", "POST"} {
			if strings.HasSuffix(allow, method) {
				continue
			}
			response, body := proxy.do(t, request{method: method, target: path + "?query=foo"})
			if method == "HEAD" {
				body = `{"status":"error","errorType":"bad_data","error":"none has a body"}`
			}
			checkError(t, method+" "+path, response, body, http.StatusMethodNotAllowed, "bad_data")
			if found := response.Header.Get("Allow"); found != allow {
				t.Errorf("%s %s: Allow: %s", method, path, found)
			}
		}
	}
	response, body := proxy.raw(t, "CONNECT x:80 HTTP/1.1\r\nHost: x:80\r\n\r\n")
	checkError(t, "CONNECT", response, body, http.StatusNotFound, "not_found")
	header := http.Header{"X-Http-Method-Override": {"DELETE"}, "X-Http-Method": {"DELETE"}}
	proxy.do(t, request{method: "POST", target: "/api/v1/query?query=foo", header: header})
	proxy.checkAsked(t, "a method in a header", 1)
}

// A request that can be read in two ways reaches the server behind as one request that is changed, or not at all.
func TestSmuggling(t *testing.T) {
	proxy := serve(t, fixed("team-a"), nil)
	const line = "POST /api/v1/query HTTP/1.1\r\nHost: x\r\nContent-Type: " + formType + "\r\n"
	const chunk = "9\r\nquery=foo\r\n0\r\n\r\n"
	const second = "GET /api/v1/status/config HTTP/1.1\r\nHost: x\r\n\r\n"
	for name, it := range map[string]struct {
		text          string
		status, asked int
	}{
		"chunks":                 {line + "Transfer-Encoding: chunked\r\n\r\n" + chunk, 200, 1},
		"chunks in parts":        {line + "Transfer-Encoding: chunked\r\n\r\n3\r\nque\r\n6;x=y\r\nry=foo\r\n0\r\n\r\n", 200, 1},
		"chunks and a length":    {line + "Transfer-Encoding: chunked\r\nContent-Length: 4\r\n\r\n" + chunk + second, 200, 1},
		"a length and chunks":    {line + "Content-Length: 9\r\nTransfer-Encoding: chunked\r\n\r\n" + chunk + second, 200, 1},
		"two lengths":            {line + "Content-Length: 9\r\nContent-Length: 5\r\n\r\nquery=foo", 400, 0},
		"two lengths in one":     {line + "Content-Length: 9, 5\r\n\r\nquery=foo", 400, 0},
		"a signed length":        {line + "Content-Length: +9\r\n\r\nquery=foo", 400, 0},
		"a length below zero":    {line + "Content-Length: -9\r\n\r\nquery=foo", 400, 0},
		"a length in hex":        {line + "Content-Length: 0x9\r\n\r\nquery=foo", 400, 0},
		"two encodings":          {line + "Transfer-Encoding: chunked\r\nTransfer-Encoding: identity\r\n\r\n" + chunk, 501, 0},
		"two encodings in one":   {line + "Transfer-Encoding: identity, chunked\r\n\r\n" + chunk, 501, 0},
		"another encoding":       {line + "Transfer-Encoding: xchunked\r\nContent-Length: 9\r\n\r\nquery=foo", 501, 0},
		"a space in the name":    {line + "Transfer-Encoding : chunked\r\n\r\n" + chunk, 400, 0},
		"a tab in the name":      {line + "Transfer-Encoding\t: chunked\r\n\r\n" + chunk, 400, 0},
		"a bad chunk":            {line + "Transfer-Encoding: chunked\r\n\r\nz\r\nquery=foo\r\n0\r\n\r\n", 400, 0},
		"a chunk without end":    {line + "Transfer-Encoding: chunked\r\n\r\n9\r\nquery=fooX\r\n0\r\n\r\n", 400, 0},
		"two hosts":              {"GET /api/v1/query?query=foo HTTP/1.1\r\nHost: x\r\nHost: y\r\n\r\n", 400, 0},
		"no host":                {"GET /api/v1/query?query=foo HTTP/1.1\r\n\r\n", 400, 0},
		"a space in the address": {"GET /api/v1/query?query=foo x HTTP/1.1\r\nHost: x\r\n\r\n", 400, 0},
		"another address":        {"GET http://y/api/v1/status/config HTTP/1.1\r\nHost: x\r\n\r\n", 404, 0},
		"the address of another": {"GET http://y/api/v1/query?query=foo HTTP/1.1\r\nHost: x\r\n\r\n", 200, 1},
		"a fragment":             {"GET /api/v1/query?query=foo#&query=b HTTP/1.1\r\nHost: x\r\n\r\n", 400, 0},
		"a body of a GET":        {"GET /api/v1/query?query=foo HTTP/1.1\r\nHost: x\r\nContent-Length: " + strconv.Itoa(len(second)) + "\r\n\r\n" + second, 200, 1},
		"a request after it":     {"GET /api/v1/query?query=foo HTTP/1.1\r\nHost: x\r\n\r\n" + second, 200, 1},
		"HTTP/2 in clear":        {"PRI * HTTP/2.0\r\n\r\nSM\r\n\r\n", 404, 0},
		"HTTP/2 by an upgrade":   {"GET /api/v1/query?query=foo HTTP/1.1\r\nHost: x\r\nConnection: Upgrade, HTTP2-Settings\r\nUpgrade: h2c\r\nHTTP2-Settings: x\r\n\r\n", 200, 1},
		"NUL in a header":        {"GET /api/v1/query?query=foo HTTP/1.1\r\nHost: x\r\nX-A: a\x00b\r\n\r\n", 400, 0},
		"NUL in the address":     {"GET /api/v1/query?query=foo\x00 HTTP/1.1\r\nHost: x\r\n\r\n", 400, 0},
		"a line in the address":  {"GET /api/v1/query?query=foo%0d%0aX-Tenant:%20team HTTP/1.1\r\nHost: x\r\n\r\n", 400, 0},
		"a long header":          {"GET /api/v1/query?query=foo HTTP/1.1\r\nHost: x\r\nX-A: " + strings.Repeat("a", 1<<20+8192) + "\r\n\r\n", 431, 0},
	} {
		response, body := proxy.raw(t, it.text)
		if response.StatusCode != it.status {
			t.Errorf("%s: %d %s", name, response.StatusCode, body)
		}
		proxy.checkAsked(t, name, it.asked)
	}
}
