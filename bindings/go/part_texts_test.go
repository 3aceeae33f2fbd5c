package promql_test

import (
	"fmt"
	"strings"
	"testing"

	"wellapron.example/promql"
)

func ExampleMatcher_String() {
	fmt.Println(promql.Matcher{Name: "job", Type: promql.MatchEqual, Value: "api"})
	// Output: job="api"
}

func TestMatcherTexts(t *testing.T) {
	for _, want := range []string{
		`a=""`, `b="a"`, `zz!="}"`, `b=~"c|d"`, `b!~".*"`, `b="\"\\\n"`, `"a.b"="é"`, `__name="=,a"`, `__name__="up"`, `__name__="a.b"`,
		`__name__!="up"`, `__name__=~"up|a"`, `A="}"`,
	} {
		for _, matcher := range promql.SelectionOf(parsed(t, "{z='1',"+want+"}")).Matchers {
			if got := matcher.String(); matcher.Name != "z" && got != want {
				t.Errorf("%s: %s", want, got)
			}
		}
	}
	for wrong, want := range map[promql.Matcher]string{
		{Name: "a", Type: "~"}: "$.matchers[0].type", {Name: "a", Type: promql.MatchRegexp, Value: "("}: "$.matchers[0].value",
		{Name: "a\xff", Type: "="}: "$: input is not UTF-8", {Name: "__name__", Type: promql.MatchRegexp, Value: "("}: "$.matchers[0].value",
		{Name: "a", Type: promql.MatchRegexp, Value: "b{3000}"}: "$: patterns are too large",
	} {
		if got := wrong.String(); !strings.HasPrefix(got, "%!("+want) || !strings.HasSuffix(got, ")") {
			t.Errorf("%q: %s", wrong.Value, got)
		}
	}
}

func TestModifierTexts(t *testing.T) {
	for _, want := range []string{"", "offset 5m", "offset -1ms", "@ 1.500", "@ end()", "@ start() offset -5m"} {
		for _, before := range []string{"foo", "foo[1m]"} {
			selection := promql.SelectionOf(parsed(t, before+" "+want))
			if got := selection.Times.String(); got != want {
				t.Errorf("%s: %s", want, got)
			}
			if got := selection.String(); got != strings.TrimSpace("foo "+want) {
				t.Errorf("%s: %s", want, got)
			}
			if got := selection.Offset.String(); got != want[strings.Index(want+"offset", "offset"):] {
				t.Errorf("%s: %s", want, got)
			}
		}
	}
	for _, want := range []string{
		"", "on () ", "on (b) ", "ignoring (b) ", "on (b) group_left () ", "on (b) group_right (c, d) ", "on (b) fill_left (1) ", "fill (0) ",
	} {
		for _, operator := range []string{"+", "==", "and"} {
			query := "a " + operator + " " + want + "a"
			if expr, err := promql.Parse(query); err == nil {
				if got := expr.(*promql.BinaryExpr).VectorMatching.String(); got != strings.TrimSpace(want) {
					t.Errorf("%s: %s", query, got)
				}
			} else if operator != "and" {
				t.Error(err)
			}
		}
	}
	for wrong, want := range map[fmt.Stringer]string{
		promql.Times{StartOrEnd: "now"}:                          "%!($.startOrEnd",
		&promql.VectorMatching{Card: "some"}:                     "%!($.matching.card",
		&promql.VectorMatching{Include: promql.Labels{"a"}}:      "%!($.matching: labels",
		&promql.VectorMatching{MatchingLabels: []string{"\xff"}}: "%!($: input is not UTF-8",
		(*promql.VectorMatching)(nil):                            "",
	} {
		if got := wrong.String(); !strings.HasPrefix(got, want) || (got == "") != (want == "") {
			t.Errorf("%s: %s", want, got)
		}
	}
}
