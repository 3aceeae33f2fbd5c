//go:build go1.23

package promql_test

import (
	"iter"
	"testing"

	"wellapron.example/promql"
)

// From Go 1.23 on All is an iterator of the language.
func TestRangeOverAll(t *testing.T) {
	var all iter.Seq[promql.Expr] = promql.All(parsed(t, "topk(5, rate(a[1m])) + -b"))
	count := 0
	for node := range all {
		if count++; count == 3 {
			_, isNumber := node.(*promql.NumberLiteral)
			if !isNumber {
				t.Errorf("%T", node)
			}
		}
	}
	if count != 7 {
		t.Error(count)
	}
	for range all {
		count++
		break
	}
	if count != 8 {
		t.Error(count)
	}
}
