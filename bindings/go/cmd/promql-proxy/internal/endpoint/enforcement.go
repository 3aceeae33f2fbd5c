package endpoint

import (
	"errors"
	"fmt"
	"regexp"

	"wellapron.example/promql"
	"wellapron.example/promql/cmd/promql-proxy/internal/failure"
	"wellapron.example/promql/cmd/promql-proxy/internal/tenant"
)

// Enforcement is what is done to the queries and the selectors of a tenant.
type Enforcement struct {
	Tenant tenant.Tenant
	// RejectConflicts says that a query with another matcher of the tenant's label is an error.
	RejectConflicts bool
	// Shared has the names of the metrics that each tenant sees whole.
	Shared []string
}

var metricName = regexp.MustCompile(`^[a-zA-Z_:][a-zA-Z0-9_:]*$`)

// CheckShared says which name of a metric cannot be that of one that each tenant sees.
func CheckShared(names []string) error {
	for i, name := range names {
		expr, err := promql.Parse(name)
		if err != nil || !metricName.MatchString(name) || promql.SelectionOf(expr) == nil {
			return fmt.Errorf("%q is not the name of a metric", name)
		}
		if isOne(names[:i], name) {
			return fmt.Errorf("%q is given twice", name)
		}
	}
	return nil
}

func isOne(names []string, name string) bool {
	for _, it := range names {
		if it == name {
			return true
		}
	}
	return false
}

// enforce puts the tenant's matcher into each selector of a text, but for those of shared metrics.
func (e Enforcement) enforce(text string) (string, *failure.Error) {
	changed, err := promql.Enforce(text, e.Tenant.Matcher())
	if err != nil {
		return "", rejected(err)
	}
	if !e.RejectConflicts && len(e.Shared) == 0 {
		return changed, nil
	}
	asked, err := promql.Parse(text)
	if err != nil {
		return "", rejected(err)
	}
	selections := selectionsOf(asked)
	if failed := e.conflict(selections); failed != nil {
		return "", failed
	}
	if changed, err = e.keepShared(selections, changed); err != nil {
		return "", rejected(err)
	}
	return changed, nil
}

// selectionsOf returns the selections of a tree, in its order. They are the tree's own.
func selectionsOf(expr promql.Expr) []*promql.Selection {
	var found []*promql.Selection
	promql.Inspect(expr, func(node promql.Expr, _ []promql.Expr) error {
		if selection := promql.SelectionOf(node); selection != nil {
			found = append(found, selection)
		}
		return nil
	})
	return found
}

// isShared says whether a selection selects series of a shared metric alone. It does so by the name before its braces.
func (e Enforcement) isShared(selection *promql.Selection) bool {
	return isOne(e.Shared, string(selection.Name))
}

// conflict returns the error of the first matcher that names the tenant's label in another way than the tenant's own matcher.
func (e Enforcement) conflict(selections []*promql.Selection) *failure.Error {
	if !e.RejectConflicts {
		return nil
	}
	for _, selection := range selections {
		for _, matchers := range append([]promql.Matchers{selection.Matchers}, selection.OrMatchers...) {
			for _, matcher := range matchers {
				if !e.isShared(selection) && e.Tenant.Conflicts(matcher) {
					return failure.Bad(failure.Conflict, fmt.Sprintf("the matcher of %s is not one of the tenant's", matcher.Name))
				}
			}
		}
	}
	return nil
}

// keepShared returns a changed text in which the selectors of shared metrics are those that were asked. Where the matcher is put into the
// result once more, that is the changed text again: so each selector but those has it.
func (e Enforcement) keepShared(asked []*promql.Selection, changed string) (string, error) {
	tree, err := promql.Parse(changed)
	if err != nil {
		return "", err
	}
	selections := selectionsOf(tree)
	if len(selections) != len(asked) {
		return "", promql.ErrUnfaithful
	}
	kept := 0
	for i, selection := range selections {
		if e.isShared(selection) {
			*selection = *asked[i]
			kept++
		}
	}
	if kept == 0 {
		return changed, nil
	}
	text, err := promql.Print(tree)
	if err != nil {
		return "", err
	}
	again, err := promql.Enforce(text, e.Tenant.Matcher())
	if err == nil && again != changed {
		err = promql.ErrUnfaithful
	}
	return text, err
}

// rejected returns what the client is told where the library does not give a text.
func rejected(err error) *failure.Error {
	var found *promql.QueryError
	switch {
	case errors.Is(err, promql.ErrOutOfMemory) || errors.Is(err, promql.ErrSmallStack):
		return internal(failure.Memory, err.Error(), err)
	case errors.Is(err, promql.ErrUnfaithful):
		return internal(failure.Query, err.Error(), promql.ErrUnfaithful)
	case errors.Is(err, promql.ErrTooLarge) || errors.Is(err, promql.ErrLargeEnforced) || errors.Is(err, promql.ErrLongOutput) ||
		errors.Is(err, promql.ErrTooLargeTree) || errors.Is(err, promql.ErrNumberTooWide):
		return tooMuch(err.Error())
	case errors.Is(err, promql.ErrNotATree):
		// The form of a tree has fewer levels than a query, so such a query cannot be printed again.
		return tooMuch("the query is nested too deeply to keep a shared metric as it is")
	case errors.Is(err, promql.ErrBareInfo):
		return execution(failure.Query, err.Error())
	case errors.As(err, &found) || errors.Is(err, promql.ErrNotUTF8):
		return failure.Bad(failure.Query, err.Error())
	}
	// The matcher is the proxy's own, so this is no fault of the client's.
	return internal(failure.Query, "the matcher cannot be enforced", err)
}
