package filter

import (
	"strings"
	"testing"

	"wellapron.example/promql"
)

// A request has so many steps, whatever its selectors and the labels are, and after them nothing is selected.
func TestSteps(t *testing.T) {
	var selectors Selectors
	for _, pattern := range []string{"(.*){0,700}x", "a+"} {
		matcher := promql.Matcher{Name: "x", Type: promql.MatchRegexp, Value: pattern}
		if err := selectors.Add(&promql.Selection{Matchers: promql.Matchers{matcher}}); err != nil {
			t.Fatal(err)
		}
	}
	labels := map[string]string{"x": strings.Repeat("a", 20)}
	each := (selectors.all[0].always[0].size + selectors.all[1].always[0].size) * 21
	for count := 1; count <= maxSteps/each; count++ {
		if !selectors.Select(labels) || selectors.Err() != nil {
			t.Fatalf("%d of %d: %v", count, maxSteps/each, selectors.Err())
		}
	}
	for count := 0; count < 1000; count++ {
		if selectors.Select(labels) || selectors.Err() != ErrSteps {
			t.Fatalf("after the last: %v", selectors.Err())
		}
	}
	if err := (&Selectors{}).Add(&promql.Selection{Matchers: promql.Matchers{{Name: "x", Type: promql.MatchRegexp, Value: "("}}}); err == nil {
		t.Error("a pattern that is none")
	}
}
