package promql_test

import (
	"encoding/json"
	"errors"
	"fmt"
	"math"
	"reflect"
	"strings"
	"testing"
	"time"

	"wellapron.example/promql"
)

func ExampleParse() {
	expr, err := promql.Parse("topk(5, rate(foo[5m]))")
	if err != nil {
		return
	}
	promql.Inspect(expr, func(node promql.Expr, _ []promql.Expr) error {
		if selection := promql.SelectionOf(node); selection != nil {
			fmt.Println(selection.Name)
		}
		return nil
	})
	// Output: foo
}

func ExampleParsePlaced() {
	query := "rate(foo[5m]) > 1"
	expr, places, err := promql.ParsePlaced(query)
	if err != nil {
		return
	}
	promql.Inspect(expr, func(node promql.Expr, _ []promql.Expr) error {
		if place, found := places[node]; found {
			fmt.Println(query[place.Start:place.End])
		}
		return nil
	})
	// Output:
	// rate(foo[5m]) > 1
	// rate(foo[5m])
	// foo[5m]
	// 1
}

func parsed(t *testing.T, query string) promql.Expr {
	t.Helper()
	expr, err := promql.Parse(query)
	if err != nil {
		t.Fatalf("%q: %v", query, err)
	}
	return expr
}

// text is a pointer to a text.
func text(text string) *string {
	return &text
}

func selector(name promql.Name, matchers ...promql.Matcher) *promql.VectorSelector {
	return &promql.VectorSelector{Selection: promql.Selection{Name: name, Matchers: matchers}}
}

// milliseconds returns a duration that is a whole number of them.
func milliseconds(duration time.Duration) promql.Milliseconds {
	length, err := promql.MillisecondsOf(duration)
	if err != nil {
		panic(err)
	}
	return length
}

// trees has queries with their trees.
func trees() map[string]promql.Expr {
	step, timestamp := milliseconds(5*time.Minute), int64(-1500)
	rate := promql.NewCall("rate", &promql.MatrixSelector{
		Selection: promql.Selection{
			Name: "foo",
			OrMatchers: []promql.Matchers{
				{{Name: "a", Type: promql.MatchEqual, Value: "1"}},
				{{Name: "b", Type: promql.MatchNotRegexp, Value: "2"}},
			},
			Times: promql.Times{Offset: promql.Offset{Milliseconds: milliseconds(5 * time.Minute), Negative: true}, StartOrEnd: promql.End},
		},
		Range:     milliseconds(time.Minute),
		RangeMode: promql.RangeAnchored,
	})
	return map[string]promql.Expr{
		"-Inf":   promql.NewNumber(math.Inf(-1)),
		"'a\"'":  &promql.StringLiteral{Val: `a"`},
		"-(foo)": &promql.UnaryExpr{Expr: &promql.ParenExpr{Expr: selector("foo")}},
		"time()": promql.NewCall("time"),
		"rate(foo{a='1' or b!~'2'}[1m] anchored offset -5m @ end())": rate,
		"up[1h:5m] @ -1.5": &promql.SubqueryExpr{
			Expr: selector("up"), Range: milliseconds(time.Hour), Step: &step, Times: promql.Times{Timestamp: &timestamp},
		},
		"topk without (a, b) (0.5, {a='1'})": &promql.AggregateExpr{
			Op: "topk", Expr: selector("", promql.Matcher{Name: "a", Type: promql.MatchEqual, Value: "1"}), Param: promql.NewNumber(0.5),
			Grouping: []string{"a", "b"}, Without: true,
		},
		"a == bool 1": &promql.BinaryExpr{
			Op: "==", LHS: selector("a"), RHS: promql.NewNumber(1), ReturnBool: true,
			VectorMatching: &promql.VectorMatching{Card: promql.CardOneToOne},
		},
		"a / on (b) group_left (c) fill_right (1) d": &promql.BinaryExpr{
			Op: "/", LHS: selector("a"), RHS: selector("d"), VectorMatching: &promql.VectorMatching{
				Card: promql.CardManyToOne, On: true, MatchingLabels: []string{"b"}, Include: []string{"c"},
				FillValues: promql.FillValues{RHS: text("1")},
			},
		},
	}
}

// form is the JSON form of a tree, and whether it is that of the library.
func form(t *testing.T, query string, expr promql.Expr) ([]byte, bool) {
	t.Helper()
	want, err := promql.JSON(query)
	if err != nil {
		t.Fatal(err)
	}
	got, err := json.Marshal(expr)
	if err != nil {
		t.Fatalf("%q: %v", query, err)
	}
	var gotValue, wantValue any
	if json.Unmarshal(got, &gotValue) != nil || json.Unmarshal(want, &wantValue) != nil {
		t.Fatalf("%q: no JSON", query)
	}
	return got, reflect.DeepEqual(gotValue, wantValue)
}

func TestTrees(t *testing.T) {
	for query, want := range trees() {
		made, isSame := form(t, query, want)
		if !isSame {
			t.Errorf("%q: %s", query, made)
		}
		again, err := promql.FromJSON(made)
		if got := parsed(t, query); err != nil || !reflect.DeepEqual(got, again) {
			t.Errorf("%q: %v, %v", query, err, again)
		}
	}
	var rejected *promql.QueryError
	if _, err := promql.Parse("1 +"); !errors.As(err, &rejected) {
		t.Error(err)
	}
}

func TestNoForms(t *testing.T) {
	const up = `{"name":"up","matchers":[],"offset":0,"startOrEnd":null,"timestamp":null,"type":"vectorSelector"`
	const function = `"func":{"argTypes":[],"experimental":false,"name":"time","returnType":"scalar","variadic":`
	for made, want := range map[string]string{
		"":                                       "$: not JSON",
		"{} 1":                                   "$: not JSON",
		"null":                                   "$: expected an object",
		"{}":                                     "$.type: expected such a member",
		`{"type":"number"}`:                      "$.type: expected the type of an expression",
		`{"type":"numberLiteral","val":1}`:       "$.val: expected a string",
		up + `,"more":0}`:                        "$.more: unknown member",
		`{"type":"parenExpr","expr":null}`:       "$.expr: expected an object",
		strings.Replace(up, "0", "1.5", 1) + "}": "$.offset: expected a whole number from -2^63 to 2^64 - 1",
		strings.Replace(up, "0", "-9223372036854775809", 1) + "}":                  "$.offset: expected a whole number from -2^63 to 2^64 - 1",
		strings.Replace(up, "[]", `[{"name":"a","type":"~","value":""}]`, 1) + "}": "$.matchers[0].type: expected one of =, !=, =~, !~",
		up + `,"or_matchers":[[],1]}`:                                              "$.or_matchers[1]: expected a list",
		`{"type":"call","args":[` + up + `},1],` + function + `0}}`:                "$.args[1]: expected an object",
		`{"type":"call","args":[],` + function + `1}}`:                             "$.func: expected the function time",
		`{"type":"call","args":[],"func":{"name":"times"}}`:                        "$.func.name: expected the name of a function",
	} {
		_, err := promql.FromJSON([]byte(made))
		var wrong *promql.FormError
		if !errors.As(err, &wrong) || err.Error() != want {
			t.Errorf("%s: %v", made, err)
		}
	}
}

type namesOf struct {
	names *[]string
	depth int
}

func (v namesOf) Visit(node promql.Expr, path []promql.Expr) (promql.Visitor, error) {
	if node == nil {
		*v.names = append(*v.names, ")")
		return nil, nil
	}
	if len(path) != v.depth {
		return nil, errors.New("the path is not that of the node")
	}
	*v.names = append(*v.names, strings.TrimPrefix(fmt.Sprintf("%T", node), "*promql."))
	return namesOf{v.names, v.depth + 1}, nil
}

func TestWalk(t *testing.T) {
	var names []string
	if err := promql.Walk(namesOf{&names, 0}, parsed(t, "topk(5, a) + -b"), nil); err != nil {
		t.Error(err)
	}
	want := "BinaryExpr AggregateExpr NumberLiteral ) VectorSelector ) ) UnaryExpr VectorSelector ) ) )"
	if got := strings.Join(names, " "); got != want {
		t.Error(got)
	}
	count := 0
	promql.Inspect(parsed(t, "a + b + c"), func(promql.Expr, []promql.Expr) error {
		count++
		if count == 2 {
			return errors.New("the second one")
		}
		return nil
	})
	if count != 2 {
		t.Error(count)
	}
}

func TestTransform(t *testing.T) {
	expr := parsed(t, "sum(rate(a{b='1' or c='2'}[5m])) / topk(1, (d))")
	expr = promql.Transform(expr, func(node promql.Expr) promql.Expr {
		if selection := promql.SelectionOf(node); selection != nil {
			selection.AddMatcher(promql.Matcher{Name: "t", Type: promql.MatchEqual, Value: "x"})
		}
		if paren, ok := node.(*promql.ParenExpr); ok {
			return paren.Expr
		}
		return node
	})
	want := "sum(rate(a{b='1',t='x' or c='2',t='x'}[5m])) / topk(1, d{t='x'})"
	if !reflect.DeepEqual(expr, parsed(t, want)) {
		made, _ := json.Marshal(expr)
		t.Errorf("%s", made)
	}
}

func TestNumbers(t *testing.T) {
	for value, want := range map[float64]string{
		0: "0", math.Copysign(0, -1): "0", -3: "-3", 0.5: "0.5", 1e21: "1000000000000000000000", 1e-7: "0.0000001", math.Inf(1): "Inf",
	} {
		if got := promql.NewNumber(value); got.Val != want || got.Float() != value {
			t.Errorf("%v: %v, %v", value, got.Val, got.Float())
		}
	}
	if nan := promql.NewNumber(math.NaN()); nan.Val != "NaN" || !math.IsNaN(nan.Float()) {
		t.Error(nan.Val)
	}
}

func TestPrint(t *testing.T) {
	for query, expr := range trees() {
		want, _ := promql.Canonical(query)
		if got, err := promql.Print(expr); err != nil || got != want || expr.String() != want {
			t.Errorf("%q: %q, %v", query, got, err)
		}
	}
	total := &promql.BinaryExpr{Op: "+", LHS: selector("a"), RHS: selector("b")}
	product := &promql.BinaryExpr{Op: "*", LHS: total, RHS: selector("c")}
	if got, err := promql.Print(product); err != nil || got != "(a + b) * c" {
		t.Errorf("%q, %v", got, err)
	}
	if got, err := promql.Print(product, promql.Width(5), promql.Level(1)); err != nil || !strings.HasPrefix(got, "    (\n") {
		t.Errorf("%q, %v", got, err)
	}
}

func TestPrintErrors(t *testing.T) {
	wrong := promql.NewCall("rate", selector("foo"))
	sum := &promql.AggregateExpr{Op: "sum", Expr: wrong}
	pattern := selector("a", promql.Matcher{Name: "b", Type: promql.MatchRegexp, Value: "("})
	large := selector("a", promql.Matcher{Name: "b", Type: promql.MatchRegexp, Value: "c{3000}"})
	for i, it := range []struct {
		expr, node promql.Expr
		path       string
		cause      error
	}{
		{&promql.BinaryExpr{Op: "+", LHS: promql.NewNumber(1), RHS: sum}, wrong, "$.rhs.expr", promql.ErrUnfaithful},
		{&promql.ParenExpr{Expr: pattern}, pattern, "$.expr", nil},
		{&promql.ParenExpr{}, nil, "$.expr", promql.ErrNotATree},
		{large, large, "$", promql.ErrTooLargeTree},
		{&promql.StringLiteral{Val: "\xff"}, &promql.StringLiteral{Val: "\xff"}, "$", promql.ErrNotUTF8},
	} {
		_, err := promql.Print(it.expr)
		var wrong *promql.NodeError
		if !errors.As(err, &wrong) || !reflect.DeepEqual(wrong.Node, it.node) || !strings.HasPrefix(wrong.Path, it.path) || wrong.Message == "" {
			t.Errorf("%d: %v", i, err)
		}
		if it.cause != nil && !errors.Is(err, it.cause) {
			t.Errorf("%d: %v", i, err)
		}
	}
	var deep promql.Expr = promql.NewNumber(1)
	for i := 0; i < 200; i++ {
		deep = &promql.ParenExpr{Expr: deep}
	}
	if _, err := promql.Print(deep); err == nil || err.Error() != "$: nested too deeply" || !errors.Is(err, promql.ErrNotATree) {
		t.Error(err)
	}
	if got := promql.NewCall("rates").String(); !strings.HasPrefix(got, "%!($.func") && !strings.HasPrefix(got, "%!($: ") {
		t.Error(got)
	}
}

func TestDurations(t *testing.T) {
	for _, it := range []struct {
		duration    time.Duration
		milli, back bool
		count       promql.Milliseconds
	}{
		{0, true, true, 0}, {time.Millisecond, true, true, 1}, {5 * time.Minute, true, true, 300_000}, {-time.Second, false, true, 1000},
		{time.Millisecond + 1, false, false, 0}, {1, false, false, 0}, {-1, false, false, 0}, {-time.Millisecond - 1, false, false, 0},
		{math.MaxInt64, false, false, 0}, {math.MinInt64, false, false, 0},
		{math.MaxInt64 / time.Millisecond * time.Millisecond, true, true, 9_223_372_036_854},
		{math.MinInt64 / time.Millisecond * time.Millisecond, false, true, 9_223_372_036_854},
	} {
		length, err := promql.MillisecondsOf(it.duration)
		if (err == nil) != it.milli || err != nil && !errors.Is(err, promql.ErrDuration) || err == nil && length != it.count {
			t.Errorf("%s: %d, %v", it.duration, length, err)
		}
		offset, err := promql.OffsetOf(it.duration)
		wanted := promql.Offset{Milliseconds: it.count, Negative: it.duration < 0}
		if (err == nil) != it.back || err != nil && !errors.Is(err, promql.ErrDuration) || err == nil && offset != wanted {
			t.Errorf("%s: %v, %v", it.duration, offset, err)
		}
	}
}
