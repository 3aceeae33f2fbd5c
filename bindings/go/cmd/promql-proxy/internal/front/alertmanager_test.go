package front

import (
	"encoding/json"
	"io"
	"net/http"
	"net/http/httptest"
	"strings"
	"sync"
	"testing"

	"wellapron.example/promql/cmd/promql-proxy/internal/tenant"
	"wellapron.example/promql/cmd/promql-proxy/internal/upstream"
)

const (
	mine     = "00000000-0000-4000-8000-00000000000a"
	other    = "00000000-0000-4000-8000-00000000000b"
	unknown  = "00000000-0000-4000-8000-00000000000c"
	silences = "/api/v2/silences"
	silence  = "/api/v2/silence/"
)

// manager is an Alertmanager with a silence of team-a and others, which keeps what is sent to it.
type manager struct {
	mutex sync.Mutex
	sent  []string
}

func (m *manager) ServeHTTP(w http.ResponseWriter, r *http.Request) {
	body, _ := io.ReadAll(r.Body)
	m.mutex.Lock()
	m.sent = append(m.sent, strings.TrimSpace(r.Method+" "+r.RequestURI+" "+string(body)))
	m.mutex.Unlock()
	w.Header().Set("Content-Type", "application/json")
	byID := map[string]string{
		silence + mine:  `{"id":"mine","matchers":[{"name":"tenant","value":"team-a","isRegex":false}],"comment":"x < y"}`,
		silence + other: `{"id":"secret","matchers":[{"name":"tenant","value":"secret","isRegex":false}]}`,
	}
	switch found, has := byID[r.URL.Path]; {
	case r.Method == "GET" && has:
		_, _ = io.WriteString(w, found)
	case r.Method == "GET" && strings.HasPrefix(r.URL.Path, silence):
		w.WriteHeader(http.StatusNotFound)
	case r.Method == "GET" && r.URL.Path == silences:
		_, _ = io.WriteString(w, manySilences)
	case r.Method == "GET" && r.URL.Path == "/api/v2/alerts":
		_, _ = io.WriteString(w, manyReceived)
	case r.Method == "GET" && r.URL.Path == "/api/v2/alerts/groups":
		_, _ = io.WriteString(w, manyGroups)
	case r.Method == "POST" && strings.Contains(string(body), "refused"):
		w.WriteHeader(http.StatusBadRequest)
		_, _ = io.WriteString(w, `"bad silence"`)
	case r.Method == "POST":
		_, _ = io.WriteString(w, `{"silenceID":"made"}`)
	}
}

// all returns what was sent since the last call.
func (m *manager) all() []string {
	m.mutex.Lock()
	defer m.mutex.Unlock()
	sent := m.sent
	m.sent = nil
	return sent
}

// withManager starts a proxy before a Prometheus and an Alertmanager.
func withManager(t *testing.T, tenants tenant.Source) (*served, *manager) {
	t.Helper()
	manager := &manager{}
	server := httptest.NewServer(manager)
	t.Cleanup(server.Close)
	proxy := serve(t, tenants, nil)
	behind, err := upstream.New(server.URL, upstream.Access{})
	if err != nil {
		t.Fatal(err)
	}
	proxy.front.Alertmanager = behind
	proxy.front.Table.AddAlertmanager()
	return proxy, manager
}

const manySilences = `[{"id":"mine","matchers":[{"name":"a","value":"b","isRegex":true},{"name":"tenant","value":"team-a","isRegex":false,"isEqual":true}]},
	{"id":"old","matchers":[{"name":"tenant","value":"team-a","isRegex":false}]},
	{"id":"secret 1","matchers":[{"name":"tenant","value":"team-b","isRegex":false}]},
	{"id":"secret 2","matchers":[{"name":"tenant","value":"team-a","isRegex":true}]},
	{"id":"secret 3","matchers":[{"name":"tenant","value":"team-a","isRegex":false,"isEqual":false}]},
	{"id":"secret 4","matchers":[{"name":"Tenant","value":"team-a","isRegex":false}]},
	{"id":"secret 5","matchers":[{"name":"x","value":"team-a","isRegex":false}]},
	{"id":"secret 6","matchers":[]},{"id":"secret 7"}]`

const manyReceived = `[{"fingerprint":"1","labels":{"tenant":"team-a"},"status":{"state":"suppressed","inhibitedBy":["2","3"],"silencedBy":["s"],"more":"secret"},"more":"secret"},
	{"fingerprint":"2","labels":{"tenant":"secret"},"status":{"inhibitedBy":[]}},{"fingerprint":"3","labels":{"tenant":"team-a"},"annotations":{"a":"b"}},
	{"fingerprint":"4","labels":{}},{"fingerprint":"5"},{"labels":{"tenant":"TEAM-A"}}]`

const fewReceived = `[{"fingerprint":"1","labels":{"tenant":"team-a"},"status":{"inhibitedBy":["3"],"silencedBy":["s"],"state":"suppressed"}},` +
	`{"annotations":{"a":"b"},"fingerprint":"3","labels":{"tenant":"team-a"}}]`

const manyGroups = `[{"labels":{"alertname":"x"},"receiver":{"name":"r"},"more":"secret","alerts":[{"labels":{"tenant":"team-a"}},{"labels":{"tenant":"secret"}}]},
	{"labels":{"tenant":"secret"},"receiver":{"name":"secret"},"alerts":[{"labels":{"tenant":"secret"}}]},{"labels":{"secret":"x"},"alerts":[]}]`

const fewGroups = `[{"alerts":[{"labels":{"tenant":"team-a"}}],"labels":{"alertname":"x"},"receiver":{"name":"r"}}]`

func TestAlertmanagerIsFiltered(t *testing.T) {
	proxy, manager := withManager(t, fixed("team-a"))
	for path, wanted := range map[string]string{
		"/api/v2/alerts": fewReceived, "/api/v2/alerts?active=true&filter=a%3Db&filter=tenant%3Dsecret&silenced=false": fewReceived,
		"/api/v2/alerts/groups?receiver=r": fewGroups, silence + mine: `{"id":"mine","matchers":[{"name":"tenant","value":"team-a","isRegex":false}],"comment":"x < y"}`,
	} {
		response, body := proxy.do(t, request{method: "GET", target: path})
		if response.StatusCode != http.StatusOK || body != wanted {
			t.Errorf("%s: %d %s", path, response.StatusCode, body)
		}
		if sent := manager.all(); len(sent) != 1 || sent[0] != "GET "+path {
			t.Errorf("%s: the Alertmanager was sent %q", path, sent)
		}
	}
	_, body := proxy.do(t, request{method: "GET", target: silences + "?filter=a"})
	var found []struct{ ID string }
	if err := json.Unmarshal([]byte(body), &found); err != nil || len(found) != 2 || found[0].ID != "mine" || found[1].ID != "old" {
		t.Errorf("%v: %s", err, body)
	}
	manager.all()
	for _, path := range []string{silence + other, silence + unknown} {
		response, body := proxy.do(t, request{method: "GET", target: path})
		if said := checkError(t, path, response, body, http.StatusNotFound, "not_found"); said != "no such silence" {
			t.Errorf("%s: %s", path, said)
		}
	}
	proxy.checkAsked(t, "an Alertmanager", 0)
}

// post sends a silence.
func (s *served) post(t *testing.T, body string) (*http.Response, string) {
	t.Helper()
	return s.do(t, request{method: "POST", target: silences, contentType: "application/json", body: body})
}

// A silence of a client is one of its tenant, or it is refused.
func TestSilencesThatAreMade(t *testing.T) {
	const rest = `"startsAt":"s","endsAt":"e","createdBy":"me","comment":"c"`
	const added = `{"name":"tenant","value":"team-a","isRegex":false}`
	proxy, manager := withManager(t, fixed("team-a"))
	for body, wanted := range map[string]string{
		`{"matchers":[{"name":"a","value":"b","isRegex":true,"isEqual":false}],` + rest + `}`: `{"matchers":[{"name":"a","value":"b","isRegex":true,"isEqual":false},` + added + `],` + rest + `}`,
		`{"matchers":[` + added + `],` + rest + `}`:                                           `{"matchers":[` + added + `],` + rest + `}`,
		`{"matchers":[{"name":"a","value":"b"}],"id":"",` + rest + `,"status":{"state":"x"}}`: `{"matchers":[{"name":"a","value":"b","isRegex":false},` + added + `],` + rest + `}`,
		`{"matchers":[{"name":"a","value":"1"}],"Matchers":[],` + rest + `}`:                  `{"matchers":[` + added + `],` + rest + `}`,
		`{` + rest + `}`: `{"matchers":[` + added + `],` + rest + `}`,
	} {
		response, answer := proxy.post(t, body)
		if sent := manager.all(); response.StatusCode != 200 || answer != `{"silenceID":"made"}` || len(sent) != 1 || sent[0] != "POST "+silences+" "+wanted {
			t.Errorf("%s: %d %s: the Alertmanager was sent %q", body, response.StatusCode, answer, sent)
		}
	}
	long := strings.Repeat("a", 4097)
	for body, status := range map[string]int{
		"": 400, "{": 400, "[]": 400, `{"matchers":{}}`: 400, "{}{}": 400, `{"matchers":[{"name":1}]}`: 400, `{"id":"x"}`: 400, `{"id":"../` + other + `"}`: 400,
		`{"id":"` + strings.ToUpper(other) + `"}`:                                                          400,
		`{"matchers":[{"name":"tenant","value":"team-b"}]}`:                                                400,
		`{"matchers":[` + added + `,{"name":"tenant","value":"team-b"}]}`:                                  400,
		`{"matchers":[{"name":"tenant","value":"team-a","isRegex":true}]}`:                                 400,
		`{"matchers":[{"name":"tenant","value":"team-a|.*","isRegex":true}]}`:                              400,
		`{"matchers":[{"name":"tenant","value":"team-b","isEqual":false}]}`:                                400,
		`{"matchers":[{"name":"tenant","value":""}]}`:                                                      400,
		`{"matchers":[` + strings.TrimSuffix(strings.Repeat(`{"name":"a","value":"b"},`, 101), ",") + `]}`: 422,
		`{"matchers":[{"name":"a","value":"` + long + `"}]}`:                                               422,
		`{"comment":"` + long + `"}`:                                                                       422,
	} {
		if response, answer := proxy.post(t, body); response.StatusCode != status {
			t.Errorf("%.100s: %d %s", body, response.StatusCode, answer)
		}
	}
	for _, contentType := range []string{"", formType, "text/plain"} {
		response, answer := proxy.do(t, request{method: "POST", target: silences, contentType: contentType, body: "{}"})
		checkError(t, contentType, response, answer, http.StatusBadRequest, "bad_data")
	}
	if sent := manager.all(); len(sent) != 0 {
		t.Errorf("the Alertmanager was sent %q", sent)
	}
	// What the Alertmanager says of a silence that it does not take gets to the client.
	if response, answer := proxy.post(t, `{"comment":"refused"}`); response.StatusCode != 400 || answer != `"bad silence"` {
		t.Errorf("%d %s", response.StatusCode, answer)
	}
}

// A silence is changed and ended by its tenant alone.
func TestSilencesOfOthers(t *testing.T) {
	proxy, manager := withManager(t, fixed("team-a"))
	for id, status := range map[string]int{mine: 200, other: 404, unknown: 404} {
		response, body := proxy.post(t, `{"id":"`+id+`","matchers":[]}`)
		sent := manager.all()
		if response.StatusCode != status || sent[0] != "GET "+silence+id || len(sent) != map[int]int{200: 2, 404: 1}[status] {
			t.Errorf("%s: %d %s: the Alertmanager was sent %q", id, response.StatusCode, body, sent)
		}
		if status == 404 && checkError(t, id, response, body, http.StatusNotFound, "not_found") != "no such silence" {
			t.Error(body)
		}
		response, body = proxy.do(t, request{method: "DELETE", target: silence + id})
		sent = manager.all()
		if response.StatusCode != status || sent[0] != "GET "+silence+id || len(sent) != map[int]int{200: 2, 404: 1}[status] || strings.Contains(body, "secret") {
			t.Errorf("DELETE %s: %d %s: the Alertmanager was sent %q", id, response.StatusCode, body, sent)
		}
	}
	for _, path := range strings.Fields(`
		/api/v2/status /api/v2/receivers /api/v1/silences /api/v2/silence /api/v2/silence/ /api/v2/silence/x /api/v2/silences/ /api/v2/alerts/
		/api/v2/silence/..%2fsilences /api/v2/silence/../silences /-/reload /api/v2/silence/00000000-0000-4000-8000-00000000000A
		/api/v2/silence/00000000-0000-4000-8000-00000000000a/ /api/v2/silence/00000000-0000-4000-8000-00000000000%61
	`) {
		response, body := proxy.raw(t, "GET "+path+" HTTP/1.1\r\nHost: x\r\n\r\n")
		checkError(t, path, response, body, http.StatusNotFound, "not_found")
	}
	for path, methods := range map[string]string{
		"/api/v2/alerts": "POST PUT DELETE", "/api/v2/alerts/groups": "POST", silences: "DELETE PUT", silence + mine: "POST PUT PATCH",
	} {
		for _, method := range strings.Fields(methods) {
			response, body := proxy.do(t, request{method: method, target: path, contentType: "application/json", body: "[]"})
			checkError(t, method+" "+path, response, body, http.StatusMethodNotAllowed, "bad_data")
		}
	}
	if sent := manager.all(); len(sent) != 0 {
		t.Errorf("the Alertmanager was sent %q", sent)
	}
}

// Of several tenants, a silence says which one it is of.
func TestSilencesOfSeveral(t *testing.T) {
	proxy, manager := withManager(t, fixed("team-a", "team-b"))
	for value, status := range map[string]int{"": 400, "team-a": 200, "team-b": 200, "team-c": 400, "team-a|team-b": 400} {
		body := `{"matchers":[{"name":"tenant","value":"` + value + `"}]}`
		if value == "" {
			body = `{"matchers":[]}`
		}
		if response, answer := proxy.post(t, body); response.StatusCode != status {
			t.Errorf("%q: %d %s", value, response.StatusCode, answer)
		}
	}
	if sent := manager.all(); len(sent) != 2 {
		t.Errorf("the Alertmanager was sent %q", sent)
	}
}

// Whatever bytes a client sends, each silence that the Alertmanager gets is for the tenant's alerts alone.
func FuzzSilences(f *testing.F) {
	manager := &manager{}
	server := httptest.NewServer(manager)
	f.Cleanup(server.Close)
	front := frontOf(f, server.URL, fixed("team-a"), &lines{})
	front.Alertmanager = front.Upstream
	front.Table.AddAlertmanager()
	for _, body := range []string{
		`{"matchers":[{"name":"a","value":"b","isRegex":true,"isEqual":false}],"startsAt":"s","endsAt":"e","createdBy":"me","comment":"c"}`,
		`{"matchers":[{"name":"tenant","value":"team-a"},{"Name":"tenant","VALUE":"team-b","isregex":true}],"matchers":[{}]}`,
		`{"id":"` + mine + `","matchers":[{"name":"tenant","value":"team-a","name":"x"}],"\u006datchers":null}`,
		`{"id":"` + other + `","matchers":[{"name":"tena\u006et","value":"team\u002da","isEqual":null}]}`,
	} {
		f.Add(body)
	}
	f.Fuzz(func(t *testing.T, body string) {
		request := httptest.NewRequest("POST", silences, strings.NewReader(body))
		request.Header.Set("Content-Type", "application/json")
		front.ServeHTTP(httptest.NewRecorder(), request)
		for _, sent := range manager.all() {
			if strings.HasPrefix(sent, "GET "+silence) {
				continue
			}
			made := strings.TrimPrefix(sent, "POST "+silences+" ")
			var read struct {
				ID       string
				Matchers []struct {
					Name, Value      string
					IsRegex, IsEqual *bool
				}
			}
			if err := json.Unmarshal([]byte(made), &read); err != nil || read.ID != "" && read.ID != mine {
				t.Fatalf("%q: the Alertmanager was sent %s", body, sent)
			}
			owned := 0
			for _, it := range read.Matchers {
				if it.Name == "tenant" {
					owned++
					if it.Value != "team-a" || *it.IsRegex || it.IsEqual != nil && !*it.IsEqual {
						t.Errorf("%q: the Alertmanager was sent %s", body, sent)
					}
				}
			}
			if owned == 0 {
				t.Errorf("%q: the Alertmanager was sent %s", body, sent)
			}
		}
	})
}

// Without an Alertmanager there is none of its paths.
func TestNoAlertmanager(t *testing.T) {
	proxy := serve(t, fixed("team-a"), nil)
	for _, path := range []string{"/api/v2/alerts", "/api/v2/alerts/groups", silences, silence + mine} {
		response, body := proxy.do(t, request{method: "GET", target: path})
		checkError(t, path, response, body, http.StatusNotFound, "not_found")
	}
}
