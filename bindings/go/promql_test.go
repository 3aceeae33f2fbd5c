package promql_test

import (
	"encoding/json"
	"errors"
	"fmt"
	"os"
	"os/exec"
	"reflect"
	"strings"
	"sync"
	"testing"
	"unicode/utf8"

	"wellapron.example/promql"
)

const long = `sum by (job) (rate(http_requests_total{code=~"5.."}[5m])) / on (job) up > 0.125`

func ExampleCanonical() {
	key, err := promql.Canonical("sum(rate(foo[5m]))by(job)")
	fmt.Println(key, err)
	// Output: sum by (job) (rate(foo[5m])) <nil>
}

func ExampleFormat() {
	text, _ := promql.Format("sum(rate(foo[5m]))by(job)", promql.Width(20))
	fmt.Println(text)
	// Output:
	// sum by (job) (
	//   rate(foo[5m])
	// )
}

func ExampleEnforce() {
	query, err := promql.Enforce("sum(rate(foo[5m])) / bar", `namespace="team-a"`)
	fmt.Println(query, err)
	// Output: sum(rate(foo{namespace="team-a"}[5m])) / bar{namespace="team-a"} <nil>
}

func ExampleRenameLabel() {
	query, err := promql.RenameLabel(`sum by (job) (rate(a{job="b"}[5m]))`, "job", "service")
	fmt.Println(query, err)
	// Output: sum by (service) (rate(a{service="b"}[5m])) <nil>
}

func ExampleQueryError() {
	var rejected *promql.QueryError
	if errors.As(promql.Check("sum(rate(foo[5m]) by (job)"), &rejected) {
		fmt.Println(rejected)
		fmt.Println(rejected.Snippet())
	}
	// Output:
	// 1:19: unclosed left parenthesis
	// sum(rate(foo[5m]) by (job)
	//                   ^~
}

func rejection(t *testing.T, query string) *promql.QueryError {
	t.Helper()
	var rejected *promql.QueryError
	if err := promql.Check(query); !errors.As(err, &rejected) {
		t.Fatalf("%q: %v", query, err)
	}
	return rejected
}

func TestLines(t *testing.T) {
	for query, want := range map[string]string{
		"1+(foo-2)":      "1 + (foo - 2)",
		`{b="1",a='2'}`:  `{a="2",b="1"}`,
		long:             long,
		"a  # a comment": "a",
		"foo offset 60s": "foo offset 1m",
		strings.Repeat("(", 100) + "1" + strings.Repeat(")", 100): strings.Repeat("(", 100) + "1" + strings.Repeat(")", 100),
	} {
		if got, err := promql.Canonical(query); err != nil || got != want {
			t.Errorf("%q: %q, %v", query, got, err)
		}
	}
}

func TestLongText(t *testing.T) {
	query := strings.Repeat("foo", 10_000)
	if got, err := promql.Canonical(query); err != nil || got != query {
		t.Errorf("%d bytes, %v", len(got), err)
	}
}

func TestFormat(t *testing.T) {
	want := "  sum by (job) (\n    rate(foo[5m])\n  )"
	if got, err := promql.Format("sum by (job) (rate(foo[5m]))", promql.Width(20), promql.Level(1)); err != nil || got != want {
		t.Errorf("%q, %v", got, err)
	}
	if got, err := promql.Format(long); err != nil || got != long {
		t.Errorf("%q, %v", got, err)
	}
}

func TestJSON(t *testing.T) {
	if got, err := promql.JSON("1"); err != nil || string(got) != `{"type":"numberLiteral","val":"1"}` {
		t.Errorf("%s, %v", got, err)
	}
	if _, err := promql.JSON("foo[18446744073709551.616]"); !errors.Is(err, promql.ErrNumberTooWide) {
		t.Error(err)
	}
}

func TestPlacedJSON(t *testing.T) {
	query := "x{y='é'} / foo{a='b'}"
	got, err := promql.PlacedJSON(query)
	var form struct {
		Rhs struct {
			Start, End int
			Matchers   []struct{ Start, End int }
		}
	}
	if err != nil || json.Unmarshal(got, &form) != nil || len(form.Rhs.Matchers) != 1 {
		t.Fatalf("%s, %v", got, err)
	}
	matcher := form.Rhs.Matchers[0]
	if node, part := query[form.Rhs.Start:form.Rhs.End], query[matcher.Start:matcher.End]; node != "foo{a='b'}" || part != "a='b'" {
		t.Errorf("%q, %q", node, part)
	}
	if _, err := promql.PlacedJSON("foo[18446744073709551.616]"); !errors.Is(err, promql.ErrNumberTooWide) {
		t.Error(err)
	}
}

func TestRename(t *testing.T) {
	if got, err := promql.RenameMetric(`a{b="1"} / {__name__="a"}`, "a", "c"); err != nil || got != `c{b="1"} / {__name__="c"}` {
		t.Errorf("%q, %v", got, err)
	}
	if _, err := promql.RenameMetric("a", "a", ""); !errors.Is(err, promql.ErrNotAName) {
		t.Error(err)
	}
	if _, err := promql.RenameMetric("a", "", "b c"); !errors.Is(err, promql.ErrNotAName) {
		t.Error(err)
	}
	for names, want := range map[[2]string]error{
		{"b", "c"}:        promql.ErrClash,
		{"__name__", "b"}: promql.ErrMetricLabel,
		{"b", "__name__"}: promql.ErrMetricLabel,
		{"b", "\xff"}:     promql.ErrNotUTF8,
		{"absent", "c"}:   nil,
		{"b", "no clash"}: nil,
	} {
		if _, err := promql.RenameLabel(`a{b="1",c="2"}`, names[0], names[1]); !errors.Is(err, want) {
			t.Errorf("%q: %v", names, err)
		}
	}
}

func TestExplain(t *testing.T) {
	for query, want := range map[string]promql.Explanation{
		"foo{a=b}":             {`unexpected identifier "b", expected string`, []string{"string"}, `identifier "b"`},
		`foo{a=="b"}`:          {`unexpected "=", expected string; a matcher has one "="`, []string{"string"}, `"="`},
		"sum by (job 1) (foo)": {`unexpected number "1", expected "," or ")"`, []string{`","`, `")"`}, `number "1"`},
		"nosuch(1)":            {Message: "unknown function with name 'nosuch'"},
		`foo{a=~"\\w{400}"b}`:  {`unexpected identifier "b", expected ",", "}" or "or"`, []string{`","`, `"}"`, `"or"`}, `identifier "b"`},
		`a{b=~"c{3000}"}`:      {Message: "patterns are too large: 39013, at most 16000"},
	} {
		if got := rejection(t, query).Explain(); !reflect.DeepEqual(got, want) {
			t.Errorf("%q: %#v", query, got)
		}
	}
	levels := rejection(t, strings.Repeat("a + ", 512)+"a").Explain()
	if !strings.HasPrefix(levels.Message, "more than 512 levels: ") || levels.Expected != nil || levels.Found != "" {
		t.Errorf("%#v", levels)
	}
	gone := promql.QueryError{Message: "gone", Query: "1"}
	if got := gone.Explain(); !reflect.DeepEqual(got, promql.Explanation{Message: "gone"}) {
		t.Errorf("%#v", got)
	}
}

func TestEnforce(t *testing.T) {
	if got, err := promql.Enforce(`{a="1" or b="2"}`, "c=~'x'"); err != nil || got != `{a="1", c=~"x" or b="2", c=~"x"}` {
		t.Errorf("%q, %v", got, err)
	}
	for matcher, want := range map[string]error{
		"":                 promql.ErrNotAMatcher,
		`a="1"} or {b="2"`: promql.ErrNotAMatcher,
		"a=\"\xff\"":       promql.ErrNotAMatcher,
		`__name__="up"`:    promql.ErrMetricName,
	} {
		if _, err := promql.Enforce("foo", matcher); !errors.Is(err, want) {
			t.Errorf("%q: %v", matcher, err)
		}
	}
	if _, err := promql.Enforce("foo", "a=b"); err == nil || err.Error() != `not a matcher: 1:3: unexpected identifier "b", expected string` {
		t.Error(err)
	}
	if got, err := promql.Enforce("info(b, {c='2'})", "a='1'"); err != nil || got != `info(b{a="1"}, {a="1",c="2"})` {
		t.Errorf("%q, %v", got, err)
	}
	if _, err := promql.Enforce("sum(c) + topk(scalar(info(b)), d)", `a="1"`); !errors.Is(err, promql.ErrBareInfo) {
		t.Error(err)
	}
	var rejected *promql.QueryError
	if _, err := promql.Enforce("1 +", `a="1"`); !errors.As(err, &rejected) || rejected.Start != 3 {
		t.Error(err)
	}
}

func TestLargeEnforced(t *testing.T) {
	for query, it := range map[string]struct{ matcher, message string }{
		"foo":   {"a=~'b{1230}'", "the matcher is not within the limits: patterns are too large: 16003, at most 16000"},
		"c + d": {"a=~'b{1229}'", "the enforced query is not within the limits: patterns are too large: 31980, at most 16000"},
	} {
		var rejected *promql.QueryError
		_, err := promql.Enforce(query, it.matcher)
		if !errors.Is(err, promql.ErrLargeEnforced) || errors.As(err, &rejected) || err.Error() != it.message {
			t.Errorf("%q: %v", query, err)
		}
	}
	if got, err := promql.Enforce("foo", "a=~'b{1229}'"); err != nil || got != `foo{a=~"b{1229}"}` {
		t.Errorf("%q, %v", got, err)
	}
	promql.SetLimits(32768, 31980)
	defer promql.SetLimits(32768, 16000)
	if got, err := promql.Enforce("c + d", "a=~'b{1229}'"); err != nil || got != `c{a=~"b{1229}"} + d{a=~"b{1229}"}` {
		t.Errorf("%q, %v", got, err)
	}
}

func TestPrintTree(t *testing.T) {
	form, err := promql.JSON("foo / (1 + 2)")
	if err != nil {
		t.Fatal(err)
	}
	if line, err := promql.PrintTree(form, false); line != "foo / (1 + 2)" || err != nil {
		t.Error(line, err)
	}
	if text, err := promql.PrintTree(form, true, promql.Width(7)); text != "  foo\n/\n  (1 + 2)" || err != nil {
		t.Errorf("%q %v", text, err)
	}
	if _, err := promql.PrintTree([]byte("{}"), false); !errors.Is(err, promql.ErrNotATree) || err.Error() != "$.type: the type of a node" {
		t.Error(err)
	}
}

func TestCollect(t *testing.T) {
	names, err := promql.Collect("sum by (b) (rate(foo{a='1'}[5m])) / {__name__='bar'} offset 1h")
	if err != nil {
		t.Fatal(err)
	}
	if got := fmt.Sprint(names.Functions, names.Labels, names.Metrics); got != "[rate] [a b] [bar foo]" {
		t.Error(got)
	}
	if first := names.Selectors[0]; *first.Name != "foo" || first.Matchers != `a="1"` || *first.Range != "5m" || first.Offset != nil {
		t.Errorf("%+v", first)
	}
	if second := names.Selectors[1]; second.Name != nil || *second.Offset != "1h" || second.At != nil || len(names.Selectors) != 2 {
		t.Errorf("%+v", second)
	}
	if _, err := promql.Collect("1 +"); err == nil {
		t.Error("no error")
	}
}

func TestPlaces(t *testing.T) {
	query := "up +\n rate({'foö'})"
	found := rejection(t, query)
	if found.Query[found.Start:found.End] != "{'foö'}" || found.Line != 2 || found.Column != 7 {
		t.Errorf("%+v", found)
	}
	if want := " rate({'foö'})\n      ^~~~~~~"; found.Snippet() != want {
		t.Errorf("%q", found.Snippet())
	}
	if end := rejection(t, "1 +"); end.Start != 3 || end.End != 3 {
		t.Errorf("%+v", end)
	}
	if empty := rejection(t, ""); empty.Start != 0 || empty.End != 0 {
		t.Errorf("%+v", empty)
	}
}

func TestPlaceOutsideOfTheQuery(t *testing.T) {
	found := rejection(t, "1 +")
	found.Start, found.End = -1, 90
	found.Snippet()
}

func TestNotUTF8(t *testing.T) {
	if err := promql.Check("foo\xff"); !errors.Is(err, promql.ErrNotUTF8) {
		t.Error(err)
	}
}

func TestLimits(t *testing.T) {
	var rejected *promql.QueryError
	err := promql.Check(`a{b=~"c{3000}"}`)
	if !errors.Is(err, promql.ErrTooLarge) || !errors.As(err, &rejected) || rejected.Start != 5 || rejected.End != 14 {
		t.Errorf("a pattern that is too large: %v", err)
	}
	promql.SetLimits(15, 39013)
	defer promql.SetLimits(32768, 16000)
	if err := promql.Check(`a{b=~"c{3000}"}`); err != nil {
		t.Errorf("a pattern within its limits: %v", err)
	}
	if _, err := promql.Format("a", promql.Level(513)); err != promql.ErrLevel {
		t.Errorf("a level above 512: %v", err)
	}
}

func TestFormatQuery(t *testing.T) {
	query := "sum(rate(foo[5m]))by(job) # per job"
	if got, err := promql.FormatQuery(query, false); err != nil || got != "sum by (job) (rate(foo[5m])) # per job" {
		t.Errorf("%q, %v", got, err)
	}
	laid, err := promql.FormatQuery(query, true, promql.Width(10))
	if err != nil || !strings.Contains(laid, "# per job") || !strings.Contains(laid, "\n") {
		t.Errorf("%q, %v", laid, err)
	}
	var rejected *promql.QueryError
	if _, err := promql.FormatQuery("1 +", false); !errors.As(err, &rejected) || rejected.Column != 4 {
		t.Error(err)
	}
}

func TestLongOutput(t *testing.T) {
	promql.SetMaxOutput(5)
	defer promql.SetMaxOutput(4194304)
	if _, err := promql.Canonical("a + bc"); !errors.Is(err, promql.ErrLongOutput) || err.Error() != "output is too long: 6 bytes, at most 5" {
		t.Error(err)
	}
}

func TestRefusals(t *testing.T) {
	defer func() { _ = promql.SetTarget(promql.Prometheus3) }()
	for name, query := range map[string]string{"prometheus-3": `a{b="c" or d="e"}`, "prometheus-2.42": "a[300]"} {
		target, err := promql.ParseTarget(name)
		if err != nil || promql.SetTarget(target) != nil {
			t.Fatal(name, err)
		}
		var rejected *promql.QueryError
		if err := promql.Check(query); !errors.Is(err, promql.ErrRefused) || !errors.As(err, &rejected) || rejected.Line != 1 {
			t.Errorf("%s: %v", name, err)
		}
		if _, err := promql.Canonical(query); err != nil {
			t.Errorf("%s: %v", name, err)
		}
	}
	if err := promql.SetTarget(promql.Rules); err != nil {
		t.Fatal(err)
	}
	if err := promql.Check(`a{b="c" or d="e"} + rate(b[300])`); err != nil {
		t.Error(err)
	}
}

func TestTargets(t *testing.T) {
	query := `a{b="\xc3\xa9"}`
	calls := map[string]func() (string, error){
		"Check":        func() (string, error) { return "", promql.Check(query) },
		"Enforce":      func() (string, error) { return promql.Enforce(query, "c='1'") },
		"RenameMetric": func() (string, error) { return promql.RenameMetric(query, "a", "a") },
		"FormatQuery":  func() (string, error) { return promql.FormatQuery(query, false) },
	}
	for name, call := range calls {
		var rejected *promql.QueryError
		if _, err := call(); !errors.Is(err, promql.ErrReadOtherwise) || !errors.As(err, &rejected) || rejected.Column != 6 {
			t.Errorf("%s: %v", name, err)
		}
	}
	var rejected *promql.QueryError
	if _, err := promql.Enforce("a", `b="\xc3"`); !errors.Is(err, promql.ErrReadOtherwise) || errors.As(err, &rejected) {
		t.Error(err)
	}
	if err := promql.SetTarget(3); err == nil {
		t.Error("a target with the number 3")
	}
	if err := promql.SetTarget(promql.Rules); err != nil {
		t.Fatal(err)
	}
	defer func() {
		if err := promql.SetTarget(promql.Prometheus3); err != nil {
			t.Error(err)
		}
	}()
	for name, call := range calls {
		if _, err := call(); err != nil {
			t.Errorf("%s: %v", name, err)
		}
	}
}

func TestLongTree(t *testing.T) {
	form := []byte(`{"type":"numberLiteral","val":"1"}`)
	promql.SetMaxTree(33)
	defer promql.SetMaxTree(4194304)
	_, err := promql.PrintTree(form, false)
	if !errors.Is(err, promql.ErrTooLargeTree) || err.Error() != "tree is too long: 34 bytes, at most 33" {
		t.Error(err)
	}
	promql.SetMaxTree(34)
	if got, err := promql.PrintTree(form, false); err != nil || got != "1" {
		t.Errorf("%q, %v", got, err)
	}
}

// No pattern of a tree is compiled where they are too large together, and none where the text is no tree.
func TestLargePatternsOfTrees(t *testing.T) {
	for form, said := range map[string]string{
		`{"type":"=~","value":"c{3000}"}`:                                     "patterns are too large: 39013, at most 16000",
		`[{"type":"=~","value":"c{1000}"},[{"type":"!~","value":"c{1000}"}]]`: "patterns are too large: 26026, at most 16000",
	} {
		if _, err := promql.PrintTree([]byte(form), false); !errors.Is(err, promql.ErrTooLargeTree) || err.Error() != said {
			t.Errorf("%s: %v", form, err)
		}
	}
}

func TestVersion(t *testing.T) {
	if got := promql.Version(); got != "0.10.0" {
		t.Error(got)
	}
}

func TestGoroutines(t *testing.T) {
	want, err := promql.Format(long, promql.Width(30))
	if err != nil {
		t.Fatal(err)
	}
	var group sync.WaitGroup
	for n := 0; n < 8; n++ {
		group.Add(1)
		go func() {
			defer group.Done()
			for i := 0; i < 500; i++ {
				if got, err := promql.Format(long, promql.Width(30)); err != nil || got != want {
					t.Errorf("%q, %v", got, err)
				}
			}
		}()
	}
	group.Wait()
}

// What is printed is accepted again and prints itself; a query is rejected by each function or by none.
func FuzzQueries(f *testing.F) {
	for _, query := range []string{long, "", "1 +", "foo\xff", "{a=~'('}", `"\xff"`, "-(1)^2"} {
		f.Add(query, uint(20), uint16(1))
	}
	// (Prometheus reads a byte escape otherwise, which not all of these ask)
	if err := promql.SetTarget(promql.Rules); err != nil {
		f.Fatal(err)
	}
	f.Cleanup(func() {
		if err := promql.SetTarget(promql.Prometheus3); err != nil {
			f.Error(err)
		}
	})
	f.Fuzz(func(t *testing.T, query string, width uint, level uint16) {
		line, err := promql.Canonical(query)
		if checked := promql.Check(query); (checked == nil) != (err == nil) {
			t.Fatalf("%v, %v", checked, err)
		}
		if _, laid := promql.Format(query, promql.Width(width), promql.Level(level%100)); (laid == nil) != (err == nil) {
			t.Fatalf("%v, %v", laid, err)
		}
		var rejected *promql.QueryError
		switch {
		case err == nil:
			if again, err := promql.Canonical(line); err != nil || again != line {
				t.Fatalf("%q, %q, %v", line, again, err)
			}
		case errors.As(err, &rejected):
			if !utf8.ValidString(query[:rejected.Start]) || !utf8.ValidString(rejected.Snippet()) {
				t.Fatalf("%+v", rejected)
			}
		case !errors.Is(err, promql.ErrNotUTF8):
			t.Fatal(err)
		}
	})
}

func BenchmarkCanonical(b *testing.B) {
	for i := 0; i < b.N; i++ {
		if _, err := promql.Canonical(long); err != nil {
			b.Fatal(err)
		}
	}
}

// deepQueries are queries that need much of a stack: parentheses, and patterns of as many nested groups as are read, and of more.
func deepQueries() []string {
	nested := func(opens string, count int, inner, closes string) string {
		return strings.Repeat(opens, count) + inner + strings.Repeat(closes, count)
	}
	queries := []string{nested("(", 510, "1", ")"), strings.Repeat("(", 510)}
	for opens, closes := range map[string]string{"(": ")", "(?:": ")", "[": "]"} {
		for _, count := range []int{248, 250} {
			queries = append(queries, "{a=~'"+nested(opens, count, "b", closes)+"'}")
		}
	}
	return append(queries, nested("abs(", 511, "{a=~'"+nested("(", 248, "b", ")")+"'}", ")"))
}

// TestStacks makes calls on the stacks of many threads, and again in a process whose threads have little stack.
func TestStacks(t *testing.T) {
	const inside = "PROMQL_TEST_SMALL_STACK"
	isSmall := os.Getenv(inside) != ""
	var waits sync.WaitGroup
	for i := 0; i < 8; i++ {
		waits.Add(1)
		go func() {
			defer waits.Done()
			for _, query := range deepQueries() {
				if _, err := promql.Canonical(query); errors.Is(err, promql.ErrSmallStack) != isSmall {
					t.Errorf("%.20q: %v", query, err)
				}
			}
		}()
	}
	waits.Wait()
	if isSmall {
		return
	}
	again := exec.Command("sh", "-c", `ulimit -s 512 && exec "$0" -test.run='^TestStacks$'`, os.Args[0])
	again.Env = append(os.Environ(), inside+"=1")
	if said, err := again.CombinedOutput(); err != nil {
		t.Errorf("%v: %s", err, said)
	}
}
