package front

import (
	"net/http"
	"reflect"
	"strings"
	"testing"

	"wellapron.example/promql/cmd/promql-proxy/internal/tenant"
)

// rulesOf gives a proxy rules of headers.
func (s *served) rulesOf(t *testing.T, passed, set []string) {
	t.Helper()
	for _, header := range passed {
		if err := s.front.Headers.Pass(header); err != nil {
			t.Fatal(err)
		}
	}
	for _, header := range set {
		if err := s.front.Headers.Set(header); err != nil {
			t.Fatal(err)
		}
	}
}

// The server behind gets the headers of the rules, and of a client none that the proxy sets; also where an answer is filtered.
func TestHeadersOfRules(t *testing.T) {
	proxy := serve(t, byHeader(), said(200, nil, `{"status":"success","data":{"alerts":[]}}`))
	proxy.rulesOf(t, []string{"x-grafana-user", "Cookie"}, []string{"X-Scope-OrgID: {tenant}", "x-team:  the {tenant}, {tenant}", "X-Fixed: yes"})
	header := http.Header{
		"X-Tenant": {"team-a"}, "X-Grafana-User": {"me"}, "X-Scope-Orgid": {"team-b"}, "X-Fixed": {"no"}, "X-Other": {"no"}, "X_grafana_user": {"you"},
	}
	wanted := http.Header{
		"User-Agent": {"promql-proxy"}, "X-Grafana-User": {"me"}, "X-Scope-Orgid": {"team-a"}, "X-Team": {"the team-a, team-a"}, "X-Fixed": {"yes"},
	}
	for _, path := range []string{"/api/v1/query?query=foo", "/api/v1/alerts"} {
		response, body := proxy.do(t, request{method: "GET", target: path, header: header})
		found := proxy.behind.one(t)
		found.header.Del("Accept-Encoding")
		if response.StatusCode != http.StatusOK || !reflect.DeepEqual(found.header, wanted) {
			t.Errorf("%s: %d %s: Prometheus was sent %v", path, response.StatusCode, body, found.header)
		}
		if vary := response.Header["Vary"]; !reflect.DeepEqual(vary, []string{"X-Tenant", "X-Grafana-User", "Cookie"}) {
			t.Errorf("%s: Vary is %v", path, vary)
		}
	}
	response, body := proxy.raw(t, "GET /api/v1/query?query=foo HTTP/1.1\r\nHost: x\r\nX-Tenant: a\r\nCookie: a\r\nCookie: b\r\n\r\n")
	if said := checkError(t, "twice", response, body, http.StatusBadRequest, "bad_data"); said != "there has to be one header Cookie at most: there are 2" {
		t.Error(said)
	}
	proxy.checkAsked(t, "a header twice", 0)
}

// What is named in a header is one tenant to each server that reads it, or it is refused.
func TestTenantsThatAreNamed(t *testing.T) {
	proxy := serve(t, tenant.Source{Label: "tenant", Header: "X-Tenant", List: true}, nil)
	proxy.rulesOf(t, nil, []string{"X-Scope-OrgID: {tenant}"})
	for value, wanted := range map[string]string{
		"team-a": "team-a", "a,b": "a|b", "a!b_c.d*e'f(g)h": "a!b_c.d*e'f(g)h", "...": "...",
		"a|b": "", "a b": "", "a/b": "", ".": "", "..": "", "a,..": "", "ü": "", "a:b": "", "a;b": "", strings.Repeat("a", 151): "",
	} {
		response, body := proxy.do(t, request{method: "GET", target: query, header: http.Header{"X-Tenant": {value}}})
		if wanted != "" {
			if found := proxy.behind.one(t).header.Values("X-Scope-OrgID"); len(found) != 1 || found[0] != wanted {
				t.Errorf("%q: Prometheus was sent %q", value, found)
			}
			continue
		}
		checkError(t, value, response, body, http.StatusBadRequest, "bad_data")
		proxy.checkAsked(t, value, 0)
	}
}
