// Package endpoint has the paths that are served, and what is done to each: its query or its selectors get the tenant's matcher, or its
// answer is filtered.
package endpoint

import (
	"net/http"
	"net/url"
	"strings"

	"wellapron.example/promql/cmd/promql-proxy/internal/failure"
	"wellapron.example/promql/cmd/promql-proxy/internal/form"
	"wellapron.example/promql/cmd/promql-proxy/internal/label"
)

// Endpoint is a path that is served, and how a request of it is changed.
type Endpoint struct {
	// Name is the endpoint's in metrics and in the log.
	Name string
	// Methods are those that there are.
	Methods []string
	// Server is the server behind that is asked.
	Server Server
	// Ranged says that the answer is to a query over a range of times, so that it may come in parts.
	Ranged bool
	// JSON says that the body of a request is JSON, and not a form.
	JSON bool
	// The parameters that may be there once, and those that may be there several times.
	once, several map[string]bool
	// change makes a plan for the tenant's; nil where a request has no data of a tenant in its answer.
	change func(plan *Plan, enforcement Enforcement) *failure.Error
}

// Server is a server behind the proxy.
type Server string

// The servers.
const (
	Prometheus   Server = "prometheus"
	Alertmanager Server = "alertmanager"
)

// Plan is what a server behind is asked, and what is done to its answer.
type Plan struct {
	Server       Server
	Method, Path string
	Parameters   url.Values
	// Ranged is that of the endpoint.
	Ranged bool
	// Body is JSON, and is nil where there is none.
	Body []byte
	// Guard is a plan that has to come to its end before this one. Its answer goes nowhere.
	Guard *Plan
	// Filter keeps what the tenant may see of an answer. It is nil where the answer passes as it is.
	Filter func(answer []byte) ([]byte, error)
	// Nothing is the answer where the server behind says that it has nothing. It is nil where that is an error.
	Nothing []byte
	// Missing is what the client is told where the server behind does not have what is asked for, or where it is another tenant's.
	Missing string
}

// Plan returns the plan for a request of this method and this path.
func (e *Endpoint) Plan(method, path string, sent form.Sent, enforcement Enforcement) (*Plan, *failure.Error) {
	plan := &Plan{Server: e.Server, Method: method, Path: path, Parameters: form.Merge(sent.Address, sent.Form), Ranged: e.Ranged, Body: sent.JSON}
	if err := form.Check(plan.Parameters, e.once, e.several, set([]string{queryName, matchName})); err != nil {
		return nil, err
	}
	if e.change == nil {
		return plan, nil
	}
	if err := e.change(plan, enforcement); err != nil {
		return nil, err
	}
	return plan, nil
}

// Asked returns the queries and the selectors of a request as they came, for the log.
func Asked(sent form.Sent) []string {
	parameters := form.Merge(sent.Address, sent.Form)
	return append(parameters[queryName], parameters[matchName]...)
}

const (
	prefix       = "/api/v1/"
	labelsPrefix = prefix + "label/"
	valuesSuffix = "/values"
	queryName    = "query"
	matchName    = "match[]"
)

// Table finds the endpoint of a path.
type Table struct {
	paths   map[string]*Endpoint
	values  *Endpoint
	silence *Endpoint
}

// NewTable returns the table of all endpoints. The parameters with these names are passed on, too, where the request is changed.
func NewTable(more []string) *Table {
	get, both := []string{http.MethodGet}, []string{http.MethodGet, http.MethodPost}
	query := func(name string, parameters ...string) *Endpoint {
		return &Endpoint{Name: name, Methods: both, Server: Prometheus, once: set(append(append(parameters, queryName), more...)), change: changeQuery}
	}
	selectors := func(name string, parameters ...string) *Endpoint {
		once := set(append(parameters, more...))
		return &Endpoint{Name: name, Methods: both, Server: Prometheus, once: once, several: set([]string{matchName}), change: changeSelectors}
	}
	federate := selectors("federate")
	federate.Methods = get
	values := selectors("label_values", "start", "end", "limit")
	values.change = changeValues
	ranged := query("query_range", "start", "end", "step", "timeout", "stats", "lookback_delta", "limit")
	ranged.Ranged = true
	return &Table{
		paths: map[string]*Endpoint{
			prefix + "query":           query("query", "time", "timeout", "stats", "lookback_delta", "limit"),
			prefix + "query_range":     ranged,
			prefix + "query_exemplars": query("query_exemplars", "start", "end"),
			prefix + "series":          selectors("series", "start", "end", "limit"),
			prefix + "labels":          selectors("labels", "start", "end", "limit"),
			"/federate":                federate,
			prefix + "rules": {
				Name: "rules", Methods: get, Server: Prometheus, change: filterRules, once: set([]string{"type", "exclude_alerts"}),
				several: set([]string{"rule_name[]", "rule_group[]", "file[]", matchName}),
			},
			prefix + "alerts": {Name: "alerts", Methods: get, Server: Prometheus, change: filterAlerts},
			prefix + "metadata": {
				Name: "metadata", Methods: get, Server: Prometheus, change: changeMetadata, once: set([]string{"metric", "limit", "limit_per_metric"}),
			},
			prefix + "format_query":     {Name: "format_query", Methods: both, Server: Prometheus, change: checkQuery, once: set([]string{queryName})},
			prefix + "parse_query":      {Name: "parse_query", Methods: both, Server: Prometheus, change: checkQuery, once: set([]string{queryName})},
			prefix + "status/buildinfo": {Name: "buildinfo", Methods: get, Server: Prometheus},
		},
		values: values,
	}
}

// Find returns the endpoint of a path as it was written, or nil. No endpoint's path has a percent sign, a dot or an empty segment in it, so
// no other spelling of a path is one.
func (t *Table) Find(path string) *Endpoint {
	if found, has := t.paths[path]; has {
		return found
	}
	if t.silence != nil && strings.HasPrefix(path, silencePrefix) && silenceID.MatchString(strings.TrimPrefix(path, silencePrefix)) {
		return t.silence
	}
	name := strings.TrimSuffix(strings.TrimPrefix(path, labelsPrefix), valuesSuffix)
	if label.IsName(name) && path == labelsPrefix+name+valuesSuffix {
		return t.values
	}
	return nil
}

// Takes says whether a parameter of this name is passed on or read anywhere.
func (t *Table) Takes(name string) bool {
	for _, it := range t.paths {
		if it.once[name] || it.several[name] {
			return true
		}
	}
	return t.values.once[name]
}

func set(names []string) map[string]bool {
	made := map[string]bool{}
	for _, name := range names {
		made[name] = true
	}
	return made
}
