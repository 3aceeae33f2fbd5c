package promql_test

import (
	"encoding/json"
	"errors"
	"fmt"
	"reflect"
	"strings"
	"testing"

	"wellapron.example/promql"
)

// joined is so many items, which a format makes of their numbers.
func joined(format, separator string, count int) string {
	items := make([]string, count)
	for i := range items {
		items[i] = fmt.Sprintf(format, i)
	}
	return strings.Join(items, separator)
}

func atLeast(count, least int) int {
	if count < least {
		return least
	}
	return count
}

// Lists of each kind and length, read from a query, written, read again and printed.
func TestLists(t *testing.T) {
	for _, count := range []int{0, 1, 21, 1000} {
		labels := joined("l%04d", ", ", count)
		for _, query := range []string{
			"sum by (" + labels + ") (a)",
			"sum without (" + labels + ") (a)",
			"a + on (" + labels + ") b",
			"a + ignoring (x) group_left (" + labels + ") b",
			"a + on () group_right (" + labels + ") b",
			`a{x="1",` + joined(`l%04d="1"`, ",", count) + "}",
			"a{" + joined(`l%04d="1"`, " or ", atLeast(count, 2)) + "}[5m]",
			"label_join(a, " + joined(`"l%04d"`, ", ", atLeast(count, 3)) + ")",
		} {
			expr := parsed(t, query)
			made, isSame := form(t, query, expr)
			again, err := promql.FromJSON(made)
			if err != nil || !isSame || !reflect.DeepEqual(again, expr) {
				t.Errorf("%.60s: %v", query, err)
			}
			want, _ := promql.Canonical(query)
			if line, err := promql.Print(expr); err != nil || line != want {
				t.Errorf("%.60s: %.60s, %v", query, line, err)
			}
		}
	}
}

func TestEmptyMatchingBelowGrouping(t *testing.T) {
	for query, matching := range map[string]promql.VectorMatching{
		"a + ignoring () group_left () b":   {Card: promql.CardManyToOne},
		"a + ignoring () group_right (c) b": {Card: promql.CardOneToMany, Include: []string{"c"}},
	} {
		matching := matching
		expr := &promql.BinaryExpr{Op: "+", LHS: selector("a"), RHS: selector("b"), VectorMatching: &matching}
		if !reflect.DeepEqual(parsed(t, query), promql.Expr(expr)) {
			t.Errorf("%s: another tree", query)
		}
		made, _ := json.Marshal(expr)
		if again, err := promql.FromJSON(made); err != nil || !reflect.DeepEqual(again, promql.Expr(expr)) {
			t.Errorf("%s: %v", query, err)
		}
		if line, err := promql.Print(expr); err != nil || line != query {
			t.Errorf("%s: %s, %v", query, line, err)
		}
	}
}

func TestLongTexts(t *testing.T) {
	long := strings.Repeat("é", 35_000)
	const before = `{"type":"numberLiteral","val":"1","`
	if _, err := promql.FromJSON([]byte(before + long + `":1}`)); err == nil || err.Error() != "$."+long+": unknown member" {
		t.Error(len(err.Error()))
	}
	if _, err := promql.PrintTree([]byte(before+long+`":1}`), true); err == nil || err.Error() != "$."+long+": no such member" {
		t.Error(len(err.Error()))
	}
	for _, expr := range []promql.Expr{
		promql.NewCall(long), &promql.NumberLiteral{Val: long}, &promql.AggregateExpr{Op: long, Expr: selector("a")}, selector(promql.Name(long)),
	} {
		var failed *promql.NodeError
		if _, err := promql.Print(expr); !errors.As(err, &failed) || failed.Node != expr || len(failed.Message) > 100 {
			t.Errorf("%T: %.100v", expr, err)
		}
	}
}

func TestLongNames(t *testing.T) {
	name := strings.Repeat("n", 200)
	query := "sum by (" + name + ") (" + name + "{" + name + `="1"})`
	if line, err := promql.Print(parsed(t, query)); err != nil || line != query {
		t.Errorf("%s, %v", line, err)
	}
	call := promql.NewCall(name)
	var failed *promql.NodeError
	if _, err := promql.Print(&promql.ParenExpr{Expr: call}); !errors.As(err, &failed) || failed.Node != promql.Expr(call) {
		t.Error(err)
	}
	var rejected *promql.QueryError
	if _, err := promql.Parse(name + "(a)"); !errors.As(err, &rejected) || rejected.End != 200 {
		t.Error(err)
	}
}
