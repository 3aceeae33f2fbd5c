package front

import (
	"net/http"
	"strings"
	"testing"

	"wellapron.example/promql/cmd/promql-proxy/internal/tenant"
)

// A tenant's header, in each spelling that HTTP knows, is the same header; no other name is.
func TestTenantsInHeaders(t *testing.T) {
	proxy := serve(t, byHeader(), nil)
	for name, it := range map[string]struct {
		headers string
		said    string // nothing where the request is passed on
	}{
		"as it is written":    {"X-Tenant: team-a", ""},
		"in small letters":    {"x-tenant: team-a", ""},
		"in great letters":    {"X-TENANT:\t team-a \t", ""},
		"with an underscore":  {"X_Tenant: team-a", "there has to be one header X-Tenant, for the tenant: there are 0"},
		"and an underscore":   {"X-Tenant: team-a\r\nX_Tenant: team-b\r\nx_tenant: team-b", ""},
		"and other names":     {"X-Tenant: team-a\r\nTenant: team-b\r\nX-Tenant-Id: team-b\r\nXTenant: team-b\r\nX-Scope-OrgID: team-b", ""},
		"none":                {"X-Other: team-a", "there has to be one header X-Tenant, for the tenant: there are 0"},
		"two":                 {"X-Tenant: team-a\r\nX-Tenant: team-b", "there has to be one header X-Tenant, for the tenant: there are 2"},
		"two in other cases":  {"X-Tenant: team-a\r\nx-TENANT: team-b", "there has to be one header X-Tenant, for the tenant: there are 2"},
		"two alike":           {"X-Tenant: team-a\r\nX-Tenant: team-a", "there has to be one header X-Tenant, for the tenant: there are 2"},
		"one is empty":        {"X-Tenant: team-a\r\nX-Tenant:", "there has to be one header X-Tenant, for the tenant: there are 2"},
		"empty":               {"X-Tenant:", "the tenant is empty"},
		"blank":               {"X-Tenant:  \t ", "the tenant is empty"},
		"a comma":             {"X-Tenant: team-b,team-c", ""},
		"not UTF-8":           {"X-Tenant: team-a\xff", "the tenant is not UTF-8"},
		"long":                {"X-Tenant: " + strings.Repeat("a", 1025), "the tenant has 1025 bytes, at most 1024"},
		"dropped on the way":  {"X-Tenant: team-a\r\nConnection: X-Tenant, close", ""},
		"a tab in it":         {"X-Tenant: team\ta", "the tenant has a control character"},
		"no tenant, but more": {"Connection: X-Tenant\r\nTenant: team-a", "there has to be one header X-Tenant, for the tenant: there are 0"},
	} {
		response, body := proxy.raw(t, "GET /api/v1/query?query=foo HTTP/1.1\r\nHost: x\r\n"+it.headers+"\r\n\r\n")
		if it.said == "" {
			wanted := `foo{tenant="team-a"}`
			if name == "a comma" {
				wanted = `foo{tenant="team-b,team-c"}`
			}
			found := proxy.behind.one(t)
			if response.StatusCode != http.StatusOK || found.parameters.Get("query") != wanted || len(found.header) != 1 {
				t.Errorf("%s: %d %s: Prometheus was asked %v", name, response.StatusCode, body, found)
			}
			continue
		}
		if said := checkError(t, name, response, body, http.StatusBadRequest, "bad_data"); said != it.said {
			t.Errorf("%s: %s", name, said)
		}
		proxy.checkAsked(t, name, 0)
	}
	// A header after the body is none of the request's.
	const chunked = "POST /api/v1/query HTTP/1.1\r\nHost: x\r\nContent-Type: " + formType + "\r\nTransfer-Encoding: chunked\r\nTrailer: X-Tenant\r\n"
	const body = "\r\n9\r\nquery=foo\r\n0\r\nX-Tenant: team-b\r\n\r\n"
	if response, text := proxy.raw(t, chunked+body); response.StatusCode != http.StatusBadRequest {
		t.Errorf("a tenant after the body: %d %s", response.StatusCode, text)
	}
	if response, text := proxy.raw(t, chunked+"X-Tenant: team-a\r\n"+body); response.StatusCode != http.StatusOK {
		t.Errorf("a second tenant after the body: %d %s", response.StatusCode, text)
	}
	proxy.checkAsked(t, "a tenant after the body", 1)
}

func TestTenantsInParameters(t *testing.T) {
	proxy := serve(t, tenant.Source{Label: "tenant", Parameter: "team"}, nil)
	const path = "/api/v1/query"
	const none, two = "there has to be one parameter team, for the tenant: there are 0", "there has to be one parameter team, for the tenant: there are 2"
	for name, it := range map[string]struct {
		request
		said string // nothing where the request is passed on
	}{
		"in the address":      {request{method: "GET", target: "?team=team-a&query=foo"}, ""},
		"beside a body":       {request{method: "POST", target: "?team=team-a", body: "query=foo"}, ""},
		"encoded":             {request{method: "GET", target: "?%74e%61m=team%2Da&query=foo"}, ""},
		"in the body":         {request{method: "POST", body: "query=foo&team=team-a"}, "the parameter team is in the body: it belongs into the address"},
		"in both":             {request{method: "POST", target: "?team=team-a", body: "query=foo&team=team-b"}, "the parameter team is in the body: it belongs into the address"},
		"encoded in the body": {request{method: "POST", target: "?team=team-a", body: "query=foo&%74eam=team-b"}, "the parameter team is in the body: it belongs into the address"},
		"none":                {request{method: "GET", target: "?query=foo"}, none},
		"in another case":     {request{method: "GET", target: "?query=foo&Team=team-a"}, none},
		"another case too":    {request{method: "GET", target: "?query=foo&team=team-a&TEAM=team-b"}, `the parameter "TEAM" is not passed on`},
		"two":                 {request{method: "GET", target: "?query=foo&team=team-a&team=team-b"}, two},
		"two, one encoded":    {request{method: "GET", target: "?query=foo&team=team-a&%74eam=team-b"}, two},
		"empty":               {request{method: "GET", target: "?query=foo&team="}, "the tenant is empty"},
		"without a value":     {request{method: "GET", target: "?query=foo&team"}, "the tenant is empty"},
		"NUL":                 {request{method: "GET", target: "?query=foo&team=team-a%00"}, "the tenant has a control character"},
		"a line":              {request{method: "GET", target: "?query=foo&team=team-a%0a"}, "the tenant has a control character"},
		"not UTF-8":           {request{method: "GET", target: "?query=foo&team=team-a%ff"}, "the address: a parameter is not UTF-8"},
		"long":                {request{method: "GET", target: "?query=foo&team=" + strings.Repeat("a", 1025)}, "the tenant has 1025 bytes, at most 1024"},
		"in a list":           {request{method: "GET", target: "?query=foo&team[]=team-a"}, none},
		"in a header":         {request{method: "GET", target: "?query=foo", header: http.Header{"Team": {"team-a"}}}, none},
	} {
		it.request.target = path + it.request.target
		if it.request.method == "POST" {
			it.request.contentType = formType
		}
		response, body := proxy.do(t, it.request)
		if it.said == "" {
			if found := proxy.behind.one(t); response.StatusCode != http.StatusOK || found.parameters.Encode() != "query=foo%7Btenant%3D%22team-a%22%7D" {
				t.Errorf("%s: %d %s: Prometheus was asked %v", name, response.StatusCode, body, found)
			}
			continue
		}
		if said := checkError(t, name, response, body, http.StatusBadRequest, "bad_data"); said != it.said {
			t.Errorf("%s: %s", name, said)
		}
		proxy.checkAsked(t, name, 0)
	}
}

// Whatever a tenant is called, its matcher is one matcher of this value.
func TestTenantsThatAreTexts(t *testing.T) {
	proxy := serve(t, tenant.Source{Label: "tenant", Header: "X-Tenant", List: true}, nil)
	for value, wanted := range map[string]string{
		`team-a`:                  `foo{tenant="team-a"}`,
		`a"} or {b="c`:            `foo{tenant="a\"} or {b=\"c"}`,
		`.*`:                      `foo{tenant=".*"}`,
		`a|b`:                     `foo{tenant="a|b"}`,
		`a\`:                      `foo{tenant="a\\"}`,
		`a,b`:                     `foo{tenant=~"a|b"}`,
		`a ,	b`:                   `foo{tenant=~"a|b"}`,
		`.*,b`:                    `foo{tenant=~"\\.\\*|b"}`,
		`a|.+,(b`:                 `foo{tenant=~"a\\|\\.\\+|\\(b"}`,
		`[^a],b{3},\d,^$,x?`:      `foo{tenant=~"\\[\\^a\\]|b\\x7b3\\}|\\\\d|\\^\\$|x\\?"}`,
		`"},b`:                    `foo{tenant=~"\"\\}|b"}`,
		`(?i)a,b`:                 `foo{tenant=~"\\(\\?i\\)a|b"}`,
		"ü,\U0001f600":            "foo{tenant=~\"ü|\U0001f600\"}",
		`a\Eb,c`:                  `foo{tenant=~"a\\\\Eb|c"}`,
		`a b,c#d,e-f,g&h,i~j,k/l`: `foo{tenant=~"a b|c#d|e-f|g&h|i~j|k/l"}`,
	} {
		proxy.do(t, request{method: "GET", target: "/api/v1/query?query=foo", header: http.Header{"X-Tenant": {value}}})
		if found := proxy.behind.one(t).parameters.Get("query"); found != wanted {
			t.Errorf("%q: Prometheus was asked %s, and not %s", value, found, wanted)
		}
	}
	for value, wanted := range map[string]string{
		"":   "the tenant is empty",
		",":  "the tenant is empty",
		"a,": "the tenant is empty", ",a": "the tenant is empty", "a,,b": "the tenant is empty", "a, ,b": "the tenant is empty",
		"a,b,a":                                 "a tenant is there twice",
		"a, a":                                  "a tenant is there twice",
		strings.Repeat("a,", 64) + "b":          "there are 65 tenants, at most 64",
		"a," + strings.Repeat("b", 1025) + ",c": "the tenant has 1025 bytes, at most 1024",
		strings.TrimSuffix("a,"+"\xff,b", ",b"): "the tenant is not UTF-8",
	} {
		response, body := proxy.do(t, request{method: "GET", target: "/api/v1/query?query=foo", header: http.Header{"X-Tenant": {value}}})
		if said := checkError(t, value, response, body, http.StatusBadRequest, "bad_data"); said != wanted {
			t.Errorf("%q: %s", value, said)
		}
	}
	if asked := proxy.behind.all(); len(asked) != 0 {
		t.Errorf("Prometheus was asked %v", asked)
	}
}

// A tenant in the path is one segment of plain characters, so that a front and the proxy read the same path.
func TestTenantsInPaths(t *testing.T) {
	proxy := serve(t, tenant.Source{Label: "tenant", Path: "/tenants/", List: true}, nil)
	const rest = "/api/v1/query?query=foo"
	for path, wanted := range map[string]string{
		"/tenants/team-a" + rest:  `foo{tenant="team-a"}`,
		"/tenants/a_b.c~d" + rest: `foo{tenant="a_b.c~d"}`,
		"/tenants/..." + rest:     `foo{tenant="..."}`,
		"/tenants/a,b" + rest:     `foo{tenant=~"a|b"}`,
		"/tenants/api" + rest:     `foo{tenant="api"}`,
	} {
		response, body := proxy.do(t, request{method: "GET", target: path})
		found := proxy.behind.one(t)
		if response.StatusCode != http.StatusOK || found.path != "/api/v1/query" || found.parameters.Get("query") != wanted {
			t.Errorf("%s: %d %s: Prometheus was asked %v", path, response.StatusCode, body, found)
		}
	}
	for path, status := range map[string]int{
		"/tenants/." + rest: 400, "/tenants/.." + rest: 400, "/tenants/" + rest: 400, "/tenants/a%2fb" + rest: 400, "/tenants/%61" + rest: 400,
		"/tenants/a;b" + rest: 400, "/tenants/a%00" + rest: 400, "/tenants/a," + rest: 400, "/tenants/a,a" + rest: 400, "/tenants/a|b" + rest: 400,
		"/tenants/team-b%2f..%2fteam-a" + rest: 400, "/tenants/" + strings.Repeat("a", 1025) + rest: 400,
		"/tenants/team-b/../team-a" + rest: 404, "/tenants/team-a/" + rest: 404, "/tenants//team-a" + rest: 404, "//tenants/team-a" + rest: 404,
		"/tenants/team-a/x" + rest: 404, "/tenants/team-a": 404, "/tenants/": 404, "/tenants": 404, "/Tenants/team-a" + rest: 404, rest: 404,
		"/%74enants/team-a" + rest: 404, "/tenants%2fteam-a" + rest: 404, "/tenants/team-a%2fapi/v1/query?query=foo": 404, "/": 404,
	} {
		response, body := proxy.raw(t, "GET "+path+" HTTP/1.1\r\nHost: x\r\n\r\n")
		if response.StatusCode != status {
			t.Errorf("%s: %d %s", path, response.StatusCode, body)
		}
		proxy.checkAsked(t, path, 0)
	}
}
