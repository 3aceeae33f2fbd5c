package promql

import (
	"bytes"
	"encoding/json"
	"errors"
	"math/rand"
	"os"
	"path/filepath"
	"reflect"
	"strings"
	"testing"
)

// queriesWithForms has a query for each member of the forms, and those of bench/queries where it is a checkout.
func queriesWithForms(t *testing.T) []string {
	t.Helper()
	queries := []string{
		"1", "-Inf", `"a\"\\b\n\x00\x1f\x7f"`, `"é🦀"`, "-(foo)", "{a='1', b!~'2'}", "{'a b'='c', d!='\"', e=~'f'}", "time()",
		"foo{a='1' or b=~'2', c!='3'} offset -5m @ end()", "foo[5m] anchored @ -1.5", "foo[5m] smoothed @ start()", "up[1h:]",
		"up[1h:5m] @ start() offset 1m", "sum without (a) (up)", "topk by (a, b) (5, up)", "round(a, 2)", "a == bool 1",
		"a and on (b) c", "a / ignoring (b) group_left (c) d", "a + on (b) group_right fill_left (1) d", "a * on () fill (2) b",
		"label_join(a, 'b', 'c', 'd')", "a @ 1e15", "a offset 1000y", "count_values('a', b)", "(((a)))", "{__name__='a' or __name__='b'}",
	}
	if text, err := os.ReadFile(filepath.Join("..", "..", "bench", "queries", "queries.txt")); err == nil {
		queries = append(queries, strings.Split(strings.TrimSpace(string(text)), "\n")...)
	}
	return queries
}

func formsOfQueries(t *testing.T) []string {
	t.Helper()
	var forms []string
	for _, query := range queriesWithForms(t) {
		form, err := JSON(query)
		if err != nil {
			t.Fatalf("%q: %v", query, err)
		}
		forms = append(forms, string(form))
	}
	return forms
}

// What the library writes is read at once, as it is read in any order, and written again.
func TestWrittenForms(t *testing.T) {
	for _, form := range formsOfQueries(t) {
		expr, isWritten := readWrittenForm(form)
		if !isWritten {
			t.Errorf("not read: %s", form)
			continue
		}
		if other, err := readAnyForm(form); err != nil || !reflect.DeepEqual(expr, other) {
			t.Errorf("read otherwise: %s", form)
		}
		if made, err := formOf(expr); err != nil || string(made) != form {
			t.Errorf("%s\n%s: %v", form, made, err)
		}
		var value any
		if err := json.Unmarshal([]byte(form), &value); err != nil {
			t.Fatal(err)
		}
		indented, _ := json.MarshalIndent(value, "", " ")
		if _, isWritten := readWrittenForm(string(indented)); isWritten {
			t.Errorf("with spaces: %s", indented)
		}
		if other, err := FromJSON(indented); err != nil || !reflect.DeepEqual(expr, other) {
			t.Errorf("%s: %v", indented, err)
		}
	}
}

// A text that is changed is read at once as it is read in any order, or not at once.
func TestChangedForms(t *testing.T) {
	generator := rand.New(rand.NewSource(80))
	forms := formsOfQueries(t)
	pieces := []string{
		`"`, `\`, "{", "}", "[", "]", ",", ":", "null", "true", `\u0000`, `\u00e9`, `\ud800`, "-", "0", "01", "-0", "18446744073709551615",
		"18446744073709551616", "é", " ", "\xff", `\n`, "", "startOrEnd", "1e3", `"a"`, `""`,
	}
	read := 0
	for i := 0; i < 2000; i++ {
		form := forms[generator.Intn(len(forms))]
		for j := generator.Intn(2); j < 2; j++ {
			start := generator.Intn(len(form))
			end := start + generator.Intn(3)
			if end > len(form) {
				end = len(form)
			}
			form = form[:start] + pieces[generator.Intn(len(pieces))] + form[end:]
		}
		expr, isWritten := readWrittenForm(form)
		if !isWritten {
			continue
		}
		read++
		if other, err := readAnyForm(form); err != nil || !reflect.DeepEqual(expr, other) {
			t.Errorf("read otherwise: %s: %v", form, err)
		}
	}
	if read < 50 {
		t.Errorf("only %d were read", read)
	}
}

func TestCutForms(t *testing.T) {
	for _, form := range formsOfQueries(t)[:27] {
		for end := range form {
			if _, isWritten := readWrittenForm(form[:end]); isWritten {
				t.Errorf("read: %s", form[:end])
			}
		}
		if _, isWritten := readWrittenForm(form + " "); isWritten {
			t.Errorf("read with a space: %s", form)
		}
	}
	for _, sign := range []string{"[", `{"args":[`, `{"expr":`, `{"bool":true,"lhs":`, `{"matchers":[`} {
		if _, isWritten := readWrittenForm(strings.Repeat(sign, 1<<20)); isWritten {
			t.Error(sign)
		}
	}
}

// Functions of the table are not shared between trees.
func TestFunctionsOfTreesAreTheirOwn(t *testing.T) {
	one, err := Parse("rate(a[1m])")
	if err != nil {
		t.Fatal(err)
	}
	one.(*Call).Func.Name = "changed"
	two, err := Parse("rate(a[1m])")
	if err != nil || two.(*Call).Func.Name != "rate" {
		t.Errorf("%v %v", two, err)
	}
}

// high returns an expression with so many others above it, and the lowest of these.
func high(expr Expr, count int) (Expr, *ParenExpr) {
	var lowest *ParenExpr
	for i := 0; i < count; i++ {
		above := &ParenExpr{Expr: expr}
		if lowest == nil {
			lowest = above
		}
		expr = above
	}
	return expr, lowest
}

// An expression below itself is found where it is there again; one that is there twice beside itself is none.
func TestExpressionsBelowThemselves(t *testing.T) {
	for _, above := range []int{0, 1, mostCompared - 2, mostCompared - 1, mostCompared, mostCompared + 1, 100} {
		for _, below := range []int{1, 2, mostCompared - 1, mostCompared, mostCompared + 1, 100} {
			ring, lowest := high(nil, below)
			lowest.Expr = ring
			tree, _ := high(ring, above)
			var failed *NodeError
			_, err := formOf(tree)
			if !errors.As(err, &failed) || !errors.Is(err, ErrBelowItself) || failed.Path != "$"+strings.Repeat(".expr", above+below) || failed.Node != ring {
				t.Errorf("%d above, %d below: %v", above, below, err)
			}
		}
		shared, _ := high(&NumberLiteral{Val: "1"}, above)
		tree, _ := high(&BinaryExpr{Op: "+", LHS: shared, RHS: &ParenExpr{Expr: &BinaryExpr{Op: "+", LHS: shared, RHS: shared}}}, above)
		form, err := formOf(tree)
		if err != nil || bytes.Count(form, []byte("numberLiteral")) != 3 {
			t.Errorf("%d above: %v", above, err)
		}
	}
}
