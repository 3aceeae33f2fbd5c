package endpoint

import (
	"encoding/json"
	"fmt"
	"net/http"
	"net/url"
	"regexp"
	"strings"

	"wellapron.example/promql/cmd/promql-proxy/internal/failure"
	"wellapron.example/promql/cmd/promql-proxy/internal/filter"
	"wellapron.example/promql/cmd/promql-proxy/internal/tenant"
)

const (
	alertsPath    = "/api/v2/alerts"
	silencesPath  = "/api/v2/silences"
	silencePrefix = "/api/v2/silence/"
	noSilence     = "no such silence"
)

// The most matchers of a silence, and the most bytes of each text of it.
const (
	maxMatchers = 100
	maxText     = 4096
)

var silenceID = regexp.MustCompile(`^[0-9a-f]{8}(-[0-9a-f]{4}){3}-[0-9a-f]{12}$`)

// silence is a silence of a client. What else it says is dropped.
type silence struct {
	ID        string           `json:"id,omitempty"`
	Matchers  []filter.Matcher `json:"matchers"`
	StartsAt  string           `json:"startsAt"`
	EndsAt    string           `json:"endsAt"`
	CreatedBy string           `json:"createdBy"`
	Comment   string           `json:"comment"`
}

// AddAlertmanager adds the paths of an Alertmanager.
func (t *Table) AddAlertmanager() {
	alerts := func(name string, keeps func([]byte, filter.Allows) ([]byte, error)) *Endpoint {
		change := func(plan *Plan, enforcement Enforcement) *failure.Error {
			plan.Filter = func(answer []byte) ([]byte, error) { return keeps(answer, enforcement.Tenant.Allows) }
			return nil
		}
		once := set([]string{"active", "silenced", "inhibited", "unprocessed", "receiver"})
		return &Endpoint{Name: name, Methods: []string{http.MethodGet}, Server: Alertmanager, once: once, several: set([]string{filterName}), change: change}
	}
	t.paths[alertsPath] = alerts("am_alerts", filter.ReceivedAlerts)
	t.paths[alertsPath+"/groups"] = alerts("am_alert_groups", filter.AlertGroups)
	t.paths[silencesPath] = &Endpoint{
		Name: "am_silences", Methods: []string{http.MethodGet, http.MethodPost}, Server: Alertmanager, JSON: true,
		several: set([]string{filterName}), change: changeSilences,
	}
	t.silence = &Endpoint{Name: "am_silence", Methods: []string{http.MethodGet, http.MethodDelete}, Server: Alertmanager, change: guardSilence}
}

const filterName = "filter"

// owns says whether matchers are those of a silence of the tenant: one of them has the label and one of the tenant's values.
func owns(of tenant.Tenant) func([]filter.Matcher) bool {
	return func(matchers []filter.Matcher) bool {
		for _, matcher := range matchers {
			if matcher.IsExact() && of.Allows(map[string]string{matcher.Name: matcher.Value}) {
				return true
			}
		}
		return false
	}
}

// changeSilences keeps the silences of a tenant, or makes one of the tenant's.
func changeSilences(plan *Plan, enforcement Enforcement) *failure.Error {
	if plan.Method == http.MethodGet {
		plan.Filter = func(answer []byte) ([]byte, error) { return filter.Silences(answer, owns(enforcement.Tenant)) }
		return nil
	}
	var asked silence
	if err := json.Unmarshal(plan.Body, &asked); err != nil {
		return failure.Bad(failure.Body, "the body is not a silence: "+err.Error())
	}
	if failed := asked.check(); failed != nil {
		return failed
	}
	if failed := asked.enforce(enforcement.Tenant); failed != nil {
		return failed
	}
	if asked.ID != "" {
		plan.guard(asked.ID, enforcement.Tenant)
	}
	plan.Parameters = url.Values{}
	var err error
	if plan.Body, err = json.Marshal(asked); err != nil {
		return internal(failure.Body, "the silence cannot be written", err)
	}
	return nil
}

func (s *silence) check() *failure.Error {
	if s.ID != "" && !silenceID.MatchString(s.ID) {
		return failure.Bad(failure.Body, "the silence has no id such as 01234567-89ab-cdef-0123-456789abcdef")
	}
	if len(s.Matchers) > maxMatchers {
		return tooMuch(fmt.Sprintf("there are %d matchers, at most %d", len(s.Matchers), maxMatchers))
	}
	texts := []string{s.StartsAt, s.EndsAt, s.CreatedBy, s.Comment}
	for _, matcher := range s.Matchers {
		texts = append(texts, matcher.Name, matcher.Value)
	}
	for _, text := range texts {
		if len(text) > maxText {
			return tooMuch(fmt.Sprintf("a text of the silence has %d bytes, at most %d", len(text), maxText))
		}
	}
	return nil
}

// enforce makes the silence one of the tenant's, where it names no tenant, or says that it is one of another.
func (s *silence) enforce(of tenant.Tenant) *failure.Error {
	for _, matcher := range s.Matchers {
		if matcher.Name == of.Label() && !owns(of)([]filter.Matcher{matcher}) {
			return failure.Bad(failure.Conflict, fmt.Sprintf("the matcher of %s is not one of the tenant's", matcher.Name))
		}
	}
	if owns(of)(s.Matchers) {
		return nil
	}
	value, is := of.Only()
	if !is {
		return failure.Bad(failure.Conflict, fmt.Sprintf("a matcher has to say which of the tenants it is: %s=..", of.Label()))
	}
	s.Matchers = append(s.Matchers, filter.Matcher{Name: of.Label(), Value: value})
	return nil
}

// guardSilence shows or ends a silence of the tenant.
func guardSilence(plan *Plan, enforcement Enforcement) *failure.Error {
	id := strings.TrimPrefix(plan.Path, silencePrefix)
	if plan.Method == http.MethodGet {
		plan.Missing = noSilence
		plan.Filter = func(answer []byte) ([]byte, error) { return filter.Silence(answer, owns(enforcement.Tenant)) }
		return nil
	}
	plan.guard(id, enforcement.Tenant)
	return nil
}

// guard lets a plan be carried out where the silence of this id is the tenant's. The matchers of a silence stay what they are.
func (p *Plan) guard(id string, of tenant.Tenant) {
	p.Missing = noSilence
	p.Guard = &Plan{
		Server: p.Server, Method: http.MethodGet, Path: silencePrefix + id, Missing: noSilence,
		Filter: func(answer []byte) ([]byte, error) { return filter.Silence(answer, owns(of)) },
	}
}
