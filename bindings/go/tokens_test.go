package promql_test

import (
	"errors"
	"reflect"
	"strings"
	"testing"

	"wellapron.example/promql"
)

func TestTokens(t *testing.T) {
	text := "Sum(a{b=~'é'}[5m:]) AND 1 # c\n; 'd"
	found, err := promql.Tokens(text)
	if err != nil {
		t.Fatal(err)
	}
	var shown []string
	for _, token := range found {
		shown = append(shown, string(token.Kind)+" "+text[token.Start:token.End])
	}
	wanted := []string{
		"aggregator Sum", "punctuation (", "name a", "punctuation {", "name b", "operator =~", "string 'é'", "punctuation }", "punctuation [",
		"duration 5m", "punctuation :", "punctuation ]", "punctuation )", "operator AND", "number 1", "comment # c", "error ;", "error 'd",
	}
	if !reflect.DeepEqual(shown, wanted) {
		t.Errorf("%q", shown)
	}
	if none, err := promql.Tokens(""); err != nil || len(none) != 0 {
		t.Error(none, err)
	}
	if _, err := promql.Tokens(strings.Repeat(" ", 32_769)); !errors.Is(err, promql.ErrTooLarge) {
		t.Error(err)
	}
	if _, err := promql.Tokens("\xff"); !errors.Is(err, promql.ErrNotUTF8) {
		t.Error(err)
	}
}

func TestDifferences(t *testing.T) {
	found, err := promql.Differences("exp(Inf) + -0")
	wanted := []promql.Difference{
		{IsRejected: false, Place: promql.Place{Start: 11, End: 12}, Message: "Prometheus reads this otherwise: the number is negative zero there, and zero here"},
		{IsRejected: true, Place: promql.Place{Start: 0, End: 3}, Message: "Prometheus 3 rejects this: the argument is an instant vector there; write vector(..) around the number"},
	}
	if err != nil || !reflect.DeepEqual(found, wanted) {
		t.Errorf("%v %v", found, err)
	}
	if found, err := promql.Differences("a"); err != nil || len(found) != 0 {
		t.Errorf("%v %v", found, err)
	}
	var rejected *promql.QueryError
	if _, err := promql.Differences("1 +"); !errors.As(err, &rejected) || rejected.Start != 3 {
		t.Error(err)
	}
}

func TestParts(t *testing.T) {
	query := "sum by (job) (rate(a{job='é'}[5m] offset 1m)) > on (b) group_left (c) d"
	found, err := promql.Parts(query)
	if err != nil {
		t.Fatal(err)
	}
	shown := make([][]string, len(found))
	for i, parts := range found {
		for _, part := range parts {
			shown[i] = append(shown[i], string(part.Kind)+" "+query[part.Start:part.End])
		}
	}
	wanted := [][]string{
		{"operator >", "label b", "groupLabel c"},
		{"operator sum", "label job"},
		{"name rate"},
		{"name a", "matcher job='é'", "selector a{job='é'}", "range [5m]", "offset offset 1m"},
		{"name d"},
	}
	if !reflect.DeepEqual(shown, wanted) {
		t.Errorf("%q", shown)
	}
	var rejected *promql.QueryError
	if _, err := promql.Parts("1 +"); !errors.As(err, &rejected) || rejected.Start != 3 {
		t.Error(err)
	}
}
