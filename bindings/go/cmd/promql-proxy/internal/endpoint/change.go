package endpoint

import (
	"errors"
	"fmt"
	"net/http"
	"net/url"
	"strconv"
	"strings"

	"wellapron.example/promql"
	"wellapron.example/promql/cmd/promql-proxy/internal/failure"
	"wellapron.example/promql/cmd/promql-proxy/internal/filter"
)

// The most selectors of a request.
const maxSelectors = 100

// changeQuery puts the matcher into each selector of the query.
func changeQuery(plan *Plan, enforcement Enforcement) *failure.Error {
	query, failed := one(plan.Parameters)
	if failed != nil {
		return failed
	}
	changed, failed := enforcement.enforce(query)
	if failed != nil {
		return failed
	}
	plan.Parameters.Set(queryName, changed)
	return nil
}

// checkQuery leaves a query as it is, of which no series are read, and so no tenant's. What the target alone rejects it rejects itself.
func checkQuery(plan *Plan, _ Enforcement) *failure.Error {
	query, failed := one(plan.Parameters)
	if failed != nil {
		return failed
	}
	if err := promql.Check(query); err != nil && !errors.Is(err, promql.ErrRefused) {
		return rejected(err)
	}
	return nil
}

// one returns the query of a request, which has one.
func one(parameters url.Values) (string, *failure.Error) {
	if len(parameters[queryName]) != 1 {
		return "", failure.Bad(failure.Query, `there has to be one parameter "query"`)
	}
	return parameters.Get(queryName), nil
}

// changeSelectors puts the matcher into each selector that the answer is asked for. Where there is none, the matcher alone is one, and the
// name of each shared metric.
func changeSelectors(plan *Plan, enforcement Enforcement) *failure.Error {
	selectors := plan.Parameters[matchName]
	if len(selectors) == 0 {
		selectors = append([]string{"{" + enforcement.Tenant.Matcher() + "}"}, enforcement.Shared...)
	} else if failed := checkTogether(selectors); failed != nil {
		return failed
	}
	changed := make([]string, len(selectors))
	for i, selector := range selectors {
		var failed *failure.Error
		if changed[i], _, failed = changeSelector(selector, enforcement); failed != nil {
			return failed
		}
	}
	plan.Parameters[matchName] = changed
	return nil
}

// changeValues does the same for the values of a label, which Prometheus has for GET alone.
func changeValues(plan *Plan, enforcement Enforcement) *failure.Error {
	plan.Method = http.MethodGet
	return changeSelectors(plan, enforcement)
}

// checkTogether says whether the selectors are too many or too large together. Each of them has the limits of a query, so without this a
// request could cost many times as much as a query.
func checkTogether(selectors []string) *failure.Error {
	if len(selectors) > maxSelectors {
		return tooMuch(fmt.Sprintf("there are %d selectors in match[], at most %d", len(selectors), maxSelectors))
	}
	// (a comment ends with its line)
	if err := promql.Check(strings.Join(selectors, "\nor\n")); errors.Is(err, promql.ErrTooLarge) {
		var found *promql.QueryError
		errors.As(err, &found)
		return tooMuch("match[]: " + found.Message)
	}
	return nil
}

// changeSelector puts the matcher into a text that is one selector, without offset and @, and nothing else. It returns the text and its
// selection.
func changeSelector(selector string, enforcement Enforcement) (string, *promql.Selection, *failure.Error) {
	changed, failed := enforcement.enforce(selector)
	if failed != nil {
		failed.Message = "match[]: " + failed.Message
		return "", nil, failed
	}
	tree, err := promql.Parse(changed)
	if err != nil {
		return "", nil, rejected(err)
	}
	found, is := tree.(*promql.VectorSelector)
	if !is || found.Offset != (promql.Offset{}) || found.StartOrEnd != "" || found.Timestamp != nil {
		return "", nil, failure.Bad(failure.Query, "match[]: it is not a selector alone")
	}
	return changed, &found.Selection, nil
}

// filterRules keeps the rules of a tenant, and of these the ones whose labels a selector selects, if there are some.
func filterRules(plan *Plan, enforcement Enforcement) *failure.Error {
	selectors := plan.Parameters[matchName]
	plan.Parameters.Del(matchName)
	if failed := checkTogether(selectors); failed != nil {
		return failed
	}
	var read filter.Selectors
	for _, selector := range selectors {
		// A rule has no name of a metric that could be shared.
		_, selection, failed := changeSelector(selector, Enforcement{Tenant: enforcement.Tenant, RejectConflicts: enforcement.RejectConflicts})
		if failed != nil {
			return failed
		}
		if err := read.Add(selection); err != nil {
			return failure.Bad(failure.Query, "match[]: "+err.Error())
		}
	}
	plan.Filter = func(answer []byte) ([]byte, error) {
		selects := func(labels map[string]string) bool { return enforcement.Tenant.Allows(labels) && read.Select(labels) }
		kept, err := filter.Rules(answer, selects, enforcement.Tenant.Allows)
		if err == nil {
			err = read.Err()
		}
		return kept, err
	}
	return nil
}

// filterAlerts keeps the alerts of a tenant.
func filterAlerts(plan *Plan, enforcement Enforcement) *failure.Error {
	plan.Filter = func(answer []byte) ([]byte, error) {
		return filter.Alerts(answer, enforcement.Tenant.Allows)
	}
	return nil
}

// changeMetadata asks for what the targets of the tenant say of their metrics. What /api/v1/metadata says is of all targets, without a label.
func changeMetadata(plan *Plan, enforcement Enforcement) *failure.Error {
	limits := [2]int{-1, 0}
	for i, name := range []string{"limit", "limit_per_metric"} {
		text := plan.Parameters.Get(name)
		if text == "" {
			continue
		}
		number, err := strconv.Atoi(text)
		if err != nil {
			return failure.Bad(failure.Parameter, fmt.Sprintf("the parameter %q is not a number", name))
		}
		limits[i] = number
	}
	metric := plan.Parameters.Get("metric")
	selector, failed := enforcement.matcherAlone()
	if failed != nil {
		return failed
	}
	plan.Path = prefix + "targets/metadata"
	plan.Parameters = url.Values{"match_target": {selector}}
	if metric != "" {
		plan.Parameters.Set("metric", metric)
	}
	plan.Nothing = filter.NoMetadata()
	plan.Filter = func(answer []byte) ([]byte, error) {
		return filter.Metadata(answer, metric, limits[0], limits[1], enforcement.Tenant.Allows)
	}
	return nil
}

// matcherAlone returns a selector that has the tenant's matcher and no other.
func (e Enforcement) matcherAlone() (string, *failure.Error) {
	selector, err := promql.Enforce("{"+e.Tenant.Matcher()+"}", e.Tenant.Matcher())
	if err != nil {
		return "", rejected(err)
	}
	return selector, nil
}

// internal returns a fault that is not the client's. The cause is for the log, so it shows no query.
func internal(reason failure.Reason, message string, cause error) *failure.Error {
	return &failure.Error{Status: http.StatusInternalServerError, Kind: failure.Internal, Reason: reason, Message: message, Cause: cause}
}

func execution(reason failure.Reason, message string) *failure.Error {
	return &failure.Error{Status: http.StatusUnprocessableEntity, Kind: failure.Execution, Reason: reason, Message: message}
}

func tooMuch(message string) *failure.Error {
	return execution(failure.Limit, message)
}
