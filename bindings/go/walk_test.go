package promql_test

import (
	"fmt"
	"reflect"
	"strings"
	"testing"

	"wellapron.example/promql"
)

func ExampleAll() {
	expr, err := promql.Parse("sum(rate(foo[5m])) / bar")
	if err != nil {
		return
	}
	promql.All(expr)(func(node promql.Expr) bool {
		fmt.Println(node)
		return true
	})
	// Output:
	// sum(rate(foo[5m])) / bar
	// sum(rate(foo[5m]))
	// rate(foo[5m])
	// foo[5m]
	// bar
}

func TestAll(t *testing.T) {
	for _, most := range []int{1, 2, 6, 7} {
		var names []string
		promql.All(parsed(t, "topk(5, a) + -b"))(func(node promql.Expr) bool {
			names = append(names, strings.TrimPrefix(fmt.Sprintf("%T", node), "*promql."))
			return len(names) < most
		})
		want := []string{"BinaryExpr", "AggregateExpr", "NumberLiteral", "VectorSelector", "UnaryExpr", "VectorSelector"}
		if most < len(want) {
			want = want[:most]
		}
		if !reflect.DeepEqual(names, want) {
			t.Error(names)
		}
	}
	paren := &promql.ParenExpr{}
	for _, below := range append(missingExprs(), paren) {
		paren.Expr = below
		count := 0
		promql.All(paren)(func(promql.Expr) bool {
			count++
			return true
		})
		if count != 1 {
			t.Errorf("%T: %d", below, count)
		}
	}
}
