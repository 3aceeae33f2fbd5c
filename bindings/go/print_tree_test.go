package promql_test

import (
	"encoding/json"
	"errors"
	"strings"
	"testing"

	"wellapron.example/promql"
)

// Errors are told from one another by errors.Is and errors.As alone.
func TestKindsOfErrors(t *testing.T) {
	paren := &promql.ParenExpr{}
	paren.Expr = paren
	var deep promql.Expr = promql.NewNumber(1)
	for i := 0; i < 200; i++ {
		deep = &promql.ParenExpr{Expr: deep}
	}
	print := func(expr promql.Expr) error {
		_, err := promql.Print(expr)
		return err
	}
	read := func(form string) error {
		_, err := promql.FromJSON([]byte(form))
		return err
	}
	_, badMatching := json.Marshal(&promql.VectorMatching{Include: promql.Labels{"a"}})
	_, badTarget := promql.ParseTarget("prometheus")
	ofTrees := []error{promql.ErrMissingExpr, promql.ErrBelowItself, promql.ErrTooDeep, promql.ErrUnknownFunction}
	for i, it := range []struct{ err, kind error }{
		{print(&promql.ParenExpr{}), promql.ErrMissingExpr},
		{promql.Walk(namesOf{new([]string), 0}, nil, nil), promql.ErrMissingExpr},
		{promql.Walk(namesOf{new([]string), 0}, &promql.ParenExpr{}, nil), promql.ErrMissingExpr},
		{print(paren), promql.ErrBelowItself},
		{promql.Walk(namesOf{new([]string), 0}, paren, nil), promql.ErrBelowItself},
		{print(deep), promql.ErrTooDeep},
		{read(strings.Repeat("[", 20_000)), promql.ErrTooDeep},
		{print(promql.NewCall("nope")), promql.ErrUnknownFunction},
		{print(&promql.Call{}), promql.ErrNotATree},
		{print(&promql.AggregateExpr{Op: "nope", Expr: selector("a")}), promql.ErrNotATree},
		{badMatching, promql.ErrNotATree},
		{read("{}"), promql.ErrNotATree},
		{read("\"\xff\""), promql.ErrNotUTF8},
		{badTarget, promql.ErrUnknownTarget},
		{promql.SetTarget(7), promql.ErrUnknownTarget},
	} {
		if !errors.Is(it.err, it.kind) {
			t.Errorf("%d: %v", i, it.err)
		}
		for _, other := range ofTrees {
			if errors.Is(it.err, other) != (it.kind == other) || !errors.Is(other, promql.ErrNotATree) {
				t.Errorf("%d: %v is %v", i, it.err, other)
			}
		}
	}
}

func TestUnknownFunctions(t *testing.T) {
	for name, want := range map[string]string{
		"nope":                    `no function is called "nope"`,
		"":                        `no function is called ""`,
		"a\"\n":                   `no function is called "a\"\n"`,
		strings.Repeat("é", 1000): `no function is called "` + strings.Repeat("é", 32) + `"`,
	} {
		call := promql.NewCall(name, selector("a"))
		_, err := promql.Print(&promql.ParenExpr{Expr: promql.NewCall("abs", call)})
		var failed *promql.NodeError
		if !errors.As(err, &failed) || failed.Path != "$.expr.args[0].func.name" || failed.Message != want || failed.Node != promql.Expr(call) {
			t.Errorf("%.20q: %v", name, err)
		}
	}
}
