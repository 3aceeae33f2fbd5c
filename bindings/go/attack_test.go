package promql_test

import (
	"encoding/json"
	"errors"
	"reflect"
	"runtime"
	"strings"
	"testing"
	"time"

	"wellapron.example/promql"
)

const one = `{"type":"numberLiteral","val":"1"}`

// around is what is before and after an expression in the form of one of each kind above it.
var around = [][2]string{
	{`{"type":"parenExpr","expr":`, `}`},
	{`{"type":"unaryExpr","op":"-","expr":`, `}`},
	{`{"bool":false,"matching":null,"op":"+","type":"binaryExpr","lhs":` + one + `,"rhs":`, `}`},
	{`{"type":"call","func":{"argTypes":["vector"],"experimental":false,"name":"abs","returnType":"vector","variadic":0},"args":[`, `]}`},
	{`{"grouping":[],"op":"sum","param":null,"type":"aggregation","without":false,"expr":`, `}`},
	{`{"grouping":[],"op":"topk","type":"aggregation","without":false,"expr":` + one + `,"param":`, `}`},
	{`{"offset":0,"range":1,"startOrEnd":null,"step":null,"timestamp":null,"type":"subquery","expr":`, `}`},
}

// within tells whether a function takes no more than so many MB, all that it allocates together, and seconds.
func within(t *testing.T, name string, megabytes uint64, seconds float64, function func()) {
	t.Helper()
	var before, after runtime.MemStats
	runtime.ReadMemStats(&before)
	begun := time.Now()
	function()
	took := time.Since(begun).Seconds()
	runtime.ReadMemStats(&after)
	allocated := (after.TotalAlloc - before.TotalAlloc) >> 20
	t.Logf("%s: %d MB, %.3f s", name, allocated, took)
	if allocated > megabytes || took > seconds {
		t.Errorf("%s: %d MB, %.3f s", name, allocated, took)
	}
}

func TestHighForms(t *testing.T) {
	for _, it := range around {
		for _, count := range []int{511, 4900} {
			form := []byte(strings.Repeat(it[0], count) + one + strings.Repeat(it[1], count))
			within(t, it[0], 200, 10, func() {
				expr, err := promql.FromJSON(form)
				if err != nil {
					t.Fatalf("%s: %v", it[0], err)
				}
				height := 0
				promql.Inspect(expr, func(_ promql.Expr, path []promql.Expr) error {
					if len(path) > height {
						height = len(path)
					}
					return nil
				})
				if height != count {
					t.Errorf("%s: %d", it[0], height)
				}
				made, err := json.Marshal(promql.Transform(expr, func(it promql.Expr) promql.Expr { return it }))
				if again, err := promql.FromJSON(made); err != nil || !reflect.DeepEqual(again, expr) {
					t.Errorf("%s: %v", it[0], err)
				}
				if err != nil {
					t.Error(err)
				}
			})
		}
	}
	for _, part := range []string{"[", `{"a":`, `{"expr":`, "[[],"} {
		within(t, part, 200, 10, func() {
			_, err := promql.FromJSON([]byte(strings.Repeat(part, (1<<20)/len(part))))
			if err == nil || err.Error() != "$: nested too deeply" {
				t.Errorf("%s: %v", part, err)
			}
		})
	}
}

// What a program made may be higher than any form.
func TestHighTrees(t *testing.T) {
	promql.SetMaxTree(8 << 20)
	defer promql.SetMaxTree(4 << 20)
	for _, count := range []int{20_000, 100_000} {
		var expr promql.Expr = selector("a")
		for i := 0; i < count; i++ {
			switch i % 3 {
			case 0:
				expr = &promql.ParenExpr{Expr: expr}
			case 1:
				expr = promql.NewCall("abs", expr)
			default:
				expr = &promql.UnaryExpr{Expr: expr}
			}
		}
		within(t, "a high tree", 2000, 20, func() {
			var failed *promql.NodeError
			if _, err := promql.Print(expr); !errors.As(err, &failed) || err.Error() != "$: nested too deeply" || failed.Node != expr {
				t.Error(err)
			}
		})
	}
}

func TestManyMembers(t *testing.T) {
	var form strings.Builder
	form.WriteString(`{"type":"numberLiteral","val":"1"`)
	for i := 0; i < 87_000; i++ {
		form.WriteString(`,"m`)
		form.WriteString(strings.Repeat("0", 6-len(itoa(i))) + itoa(i))
		form.WriteString(`":0`)
	}
	form.WriteString("}")
	within(t, "many members", 500, 10, func() {
		if _, err := promql.FromJSON([]byte(form.String())); err == nil || err.Error() != "$.m000000: unknown member" {
			t.Error(err)
		}
	})
}

func itoa(number int) string {
	made, _ := json.Marshal(number)
	return string(made)
}

func TestLargeForms(t *testing.T) {
	const up = `{"matchers":[],"name":"up","offset":0,"startOrEnd":null,"timestamp":null,"type":"vectorSelector"}`
	const function = `"func":{"argTypes":[],"experimental":false,"name":"time","returnType":"scalar","variadic":0},"type":"call"}`
	text, digits := strings.Repeat("a", 1<<20), strings.Repeat("9", 1<<20)
	for i, it := range []struct {
		form   string
		isForm bool
	}{
		{`{"type":"stringLiteral","val":"` + text + `"}`, true},
		{`{"type":"stringLiteral","val":"` + strings.Repeat(`\ud83e\udd80`, 87_000) + `"}`, true},
		{strings.Replace(up, ":0", ":"+digits, 1), false},
		{strings.Replace(up, "[]", "["+strings.Repeat("0,", 1<<19)+"0]", 1), false},
		{`{"args":[` + strings.Repeat(one+",", 30_000) + one + `],` + function, true},
		{`{"` + text + `":1}`, false},
		{"[" + strings.Repeat("{},", 1<<18) + "0]", false},
		{strings.Replace(up, "[]", "["+strings.Repeat(`{"name":"a","type":"=","value":""},`, 30_000)+`{"name":"a","type":"=","value":""}]`, 1), true},
	} {
		within(t, it.form[:30], 300, 10, func() {
			if _, err := promql.FromJSON([]byte(it.form)); (err == nil) != it.isForm {
				t.Errorf("%d: %v", i, err != nil)
			}
		})
	}
}

func TestTextsThatAreNotUTF8(t *testing.T) {
	const before, after = `{"type":"parenExpr","expr":{"type":"stringLiteral","val":"`, `"}}`
	const matcher = `{"name":null,"matchers":[{"name":"a","type":"=","value":"b"},{"name":"a","type":"=","value":"\udc00"}],"offset":0,` +
		`"startOrEnd":null,"timestamp":null,"type":"vectorSelector"}`
	for form, want := range map[string]string{
		before + "\xff" + after:            "$.expr.val: not valid UTF-8",
		before + "a\xc3" + after:           "$.expr.val: not valid UTF-8",
		before + "\xed\xa0\x80" + after:    "$.expr.val: not valid UTF-8",
		before + `\ud800` + after:          "$.expr.val: half of a surrogate pair",
		before + `\udc00` + after:          "$.expr.val: half of a surrogate pair",
		before + `\ud800\ud800` + after:    "$.expr.val: half of a surrogate pair",
		before + `\ud800\n` + after:        "$.expr.val: half of a surrogate pair",
		before + `\ud83e\u00e9` + after:    "$.expr.val: half of a surrogate pair",
		matcher:                            "$.matchers[1].value: half of a surrogate pair",
		`[[0,"\ud800"]]`:                   "$[0][1]: half of a surrogate pair",
		`{"type":"stringLiteral","\ud800"`: "$: half of a surrogate pair",
		`{"type":"a","val":"b","val":1}`:   "$.val: expected such a member once",
		before + "\x1f" + after:            "$: not JSON",
		before + `\x` + after:              "$: not JSON",
		before + `\u12g4` + after:          "$: not JSON",
		before + `\`:                       "$: not JSON",
		`{"type":01}`:                      "$: not JSON",
		`{"type":1e}`:                      "$: not JSON",
		`{"type":-}`:                       "$: not JSON",
		`[1,]`:                             "$: not JSON",
		`{"a":1,}`:                         "$: not JSON",
		`{,}`:                              "$: not JSON",
	} {
		_, err := promql.FromJSON([]byte(form))
		var wrong *promql.FormError
		if !errors.As(err, &wrong) || err.Error() != want {
			t.Errorf("%q: %v", form, err)
		}
	}
	expr, err := promql.FromJSON([]byte(before + `\ud83e\udd80\u00e9\"\\\/\b\f\n\r\t` + "🦀" + after))
	if want := "🦀é\"\\/\b\f\n\r\t🦀"; err != nil || expr.(*promql.ParenExpr).Expr.(*promql.StringLiteral).Val != want {
		t.Error(expr, err)
	}
}

// Numbers are those of JSON: what encoding/json rejects is rejected, and all else read.
func FuzzForms(f *testing.F) {
	for _, form := range []string{one, `{"a":[1,-0.5e+3,null,true,"\u00e9\ud83e\udd80"]}`, "[" + one + "]", `"\ud800"`, "\xff", "{} 1"} {
		f.Add([]byte(form))
	}
	f.Fuzz(func(t *testing.T, form []byte) {
		_, err := promql.FromJSON(form)
		var wrong *promql.FormError
		if isJSON := json.Valid(form); err != nil && (!errors.As(err, &wrong) || isJSON && wrong.Message == "not JSON") {
			t.Errorf("%q: %v", form, err)
		} else if err == nil && !isJSON {
			t.Errorf("%q is no JSON", form)
		}
	})
}

// missingExprs are all expressions that are none.
func missingExprs() []promql.Expr {
	return []promql.Expr{
		nil, (*promql.AggregateExpr)(nil), (*promql.BinaryExpr)(nil), (*promql.Call)(nil), (*promql.MatrixSelector)(nil),
		(*promql.NumberLiteral)(nil), (*promql.ParenExpr)(nil), (*promql.StringLiteral)(nil), (*promql.SubqueryExpr)(nil),
		(*promql.UnaryExpr)(nil), (*promql.VectorSelector)(nil), struct{ promql.Expr }{selector("a")},
		struct {
			promql.Expr
			cannotBeCompared []int
		}{selector("a"), nil},
	}
}

func TestMissingExpressions(t *testing.T) {
	for _, none := range missingExprs() {
		for path, expr := range map[string]promql.Expr{
			"$":              none,
			"$.expr":         &promql.ParenExpr{Expr: none},
			"$.expr.param":   &promql.ParenExpr{Expr: &promql.AggregateExpr{Op: "sum", Expr: selector("a"), Param: none}},
			"$.lhs":          &promql.BinaryExpr{Op: "+", LHS: none, RHS: selector("a")},
			"$.rhs.expr":     &promql.BinaryExpr{Op: "+", LHS: selector("a"), RHS: &promql.UnaryExpr{Expr: none}},
			"$.args[1]":      promql.NewCall("round", selector("a"), none),
			"$.args[0].expr": promql.NewCall("rate", &promql.SubqueryExpr{Expr: none}),
		} {
			if path == "$.expr.param" && none == nil {
				continue
			}
			_, err := promql.Print(expr)
			checkMissing(t, path, expr, err)
			checkMissing(t, path, expr, promql.Walk(namesOf{new([]string), 0}, expr, nil))
			promql.Inspect(expr, func(promql.Expr, []promql.Expr) error { return nil })
			promql.SelectionOf(expr).AddMatcher(promql.Matcher{})
			if path != "$" {
				_, err = json.Marshal(expr)
				checkMissing(t, path, expr, err)
				if text := expr.String(); !strings.HasPrefix(text, "%!($") {
					t.Error(text)
				}
			} else if none != nil {
				none.Children()
			}
			promql.Transform(expr, func(it promql.Expr) promql.Expr { return it })
		}
	}
	if text := (*promql.Call)(nil).String(); text != "%!($: expected an expression)" {
		t.Error(text)
	}
	(*promql.NumberLiteral)(nil).Float()
	if _, err := promql.Print(&promql.Call{}); err == nil {
		t.Error("a call of nothing is printed")
	}
}

func checkMissing(t *testing.T, path string, expr promql.Expr, err error) {
	t.Helper()
	var failed *promql.NodeError
	if !errors.As(err, &failed) || failed.Path != path || !errors.Is(err, promql.ErrNotATree) {
		t.Errorf("%s of %T: %v", path, expr, err)
	}
}

func TestExpressionsBelowThemselves(t *testing.T) {
	paren := &promql.ParenExpr{}
	both := &promql.BinaryExpr{Op: "+", LHS: paren}
	paren.Expr, both.RHS = both, both
	_, err := promql.Print(both)
	var failed *promql.NodeError
	if !errors.As(err, &failed) || err.Error() != "$.lhs.expr: an expression below itself" || failed.Node != promql.Expr(both) {
		t.Error(err)
	}
	if err := promql.Walk(namesOf{new([]string), 0}, both, nil); !errors.As(err, &failed) || failed.Path != "$.lhs.expr" {
		t.Error(err)
	}
	if _, err := json.Marshal(both); !errors.As(err, &failed) {
		t.Error(err)
	}
	calls := 0
	promql.Transform(both, func(it promql.Expr) promql.Expr {
		calls++
		return it
	})
	if calls != 2 {
		t.Error(calls)
	}
	// (one that is there twice is not below itself)
	one := promql.NewNumber(1)
	if line, err := promql.Print(&promql.BinaryExpr{Op: "+", LHS: one, RHS: one}); err != nil || line != "1 + 1" {
		t.Error(line, err)
	}
}

// A fault at the top is found at a cost that grows with the tree, and not with the tree times its height.
func TestFaultAboveMuch(t *testing.T) {
	wide := promql.NewCall("label_join")
	for i := 0; i < 4_000; i++ {
		wide.Args = append(wide.Args, selector("a"))
	}
	var high promql.Expr = wide
	for i := 0; i < 50; i++ {
		high = &promql.ParenExpr{Expr: high}
	}
	within(t, "a fault above much", 500, 10, func() {
		_, err := promql.Print(promql.NewCall("rate", high))
		var failed *promql.NodeError
		if !errors.As(err, &failed) || failed.Node != promql.Expr(wide) {
			t.Error(err)
		}
	})
}
