package promql_test

import (
	"encoding/json"
	"errors"
	"fmt"
	"reflect"
	"testing"

	"wellapron.example/promql"
)

func ExampleClone() {
	call := promql.NewCall("vector", promql.NewNumber(1))
	copied := promql.Clone(call)
	copied.Args[0] = promql.NewNumber(2)
	fmt.Println(call, copied)
	// Output: vector(1) vector(2)
}

// pointers adds what a value leads to: pointers, and lists that have room for an item.
func pointers(value reflect.Value, found map[uintptr]bool) {
	switch value.Kind() {
	case reflect.Interface:
		pointers(value.Elem(), found)
	case reflect.Pointer:
		if !value.IsNil() {
			found[value.Pointer()] = true
			pointers(value.Elem(), found)
		}
	case reflect.Slice:
		if value.Cap() > 0 {
			found[value.Pointer()] = true
		}
		for i := 0; i < value.Len(); i++ {
			pointers(value.Index(i), found)
		}
	case reflect.Struct:
		for i := 0; i < value.NumField(); i++ {
			pointers(value.Field(i), found)
		}
	}
}

func TestClones(t *testing.T) {
	expressions := trees()
	expressions["(a)"] = &promql.ParenExpr{Expr: &promql.Call{Args: make(promql.Expressions, 0, 4)}}
	for query, expr := range expressions {
		copied := promql.Clone(expr)
		if !reflect.DeepEqual(copied, expr) {
			t.Errorf("%q: %v", query, copied)
		}
		ofTree, ofCopy := map[uintptr]bool{}, map[uintptr]bool{}
		pointers(reflect.ValueOf(expr), ofTree)
		pointers(reflect.ValueOf(copied), ofCopy)
		if len(ofTree) == 0 {
			t.Errorf("%q has no parts", query)
		}
		for pointer := range ofTree {
			if ofCopy[pointer] {
				t.Errorf("%q: the copy shares a part", query)
			}
		}
	}
}

func TestClonesOfNoTrees(t *testing.T) {
	for _, none := range missingExprs() {
		if copied := promql.Clone(none); !reflect.DeepEqual(copied, none) {
			t.Errorf("%T: %v", none, copied)
		}
		expr := promql.NewCall("round", none, &promql.ParenExpr{Expr: none}, promql.NewNumber(1))
		if copied := promql.Clone(expr); !reflect.DeepEqual(copied, expr) || copied.Args[2] == expr.Args[2] {
			t.Errorf("%T: %v", none, copied)
		}
	}
	paren := &promql.ParenExpr{}
	paren.Expr = &promql.UnaryExpr{Expr: paren}
	copied := promql.Clone(paren)
	if copied == paren || copied.Expr == paren.Expr || copied.Expr.(*promql.UnaryExpr).Expr != promql.Expr(copied) {
		t.Error("the copy of an expression below itself is another")
	}
	if _, err := json.Marshal(copied); !errors.Is(err, promql.ErrBelowItself) {
		t.Error(err)
	}
}

// Each expression is there twice in the one above it: the copy has as many as the tree, and not each way to it.
func TestClonesOfSharedExpressions(t *testing.T) {
	var expr promql.Expr = promql.NewNumber(1)
	for i := 0; i < 100; i++ {
		expr = &promql.BinaryExpr{Op: "+", LHS: expr, RHS: expr}
	}
	within(t, "shared expressions", 10, 5, func() {
		copied := promql.Clone(expr).(*promql.BinaryExpr)
		if copied.LHS != copied.RHS || copied.LHS == expr.(*promql.BinaryExpr).LHS {
			t.Error("the copy shares other expressions")
		}
	})
}

func TestClonesOfHighTrees(t *testing.T) {
	var expr promql.Expr = selector("a")
	for i := 0; i < 1_000_000; i++ {
		expr = &promql.ParenExpr{Expr: expr}
	}
	within(t, "a high tree", 1000, 20, func() {
		count := 0
		for copied, isParen := promql.Clone(expr), true; isParen; count++ {
			var paren *promql.ParenExpr
			if paren, isParen = copied.(*promql.ParenExpr); isParen {
				copied = paren.Expr
			}
		}
		if count != 1_000_001 {
			t.Error(count)
		}
	})
}
