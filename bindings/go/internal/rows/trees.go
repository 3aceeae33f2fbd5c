package main

import (
	"bytes"
	"encoding/json"
	"errors"
	"fmt"
	"log"
	"math/rand"
	"reflect"
	"sort"
	"strings"

	"wellapron.example/promql"
)

// report counts what is checked, and why trees are not printed.
type report struct {
	passed, failed int
	reasons        map[string]int
}

func (r *report) check(isSo bool, format string, values ...any) {
	if isSo {
		r.passed++
		return
	}
	r.failed++
	if r.failed <= 20 {
		fmt.Printf("FAILED "+format+"\n", values...)
	}
}

func (r *report) print() {
	for reason, count := range r.reasons {
		fmt.Printf("%s: %d\n", reason, count)
	}
	fmt.Printf("%d passed, %d failed\n", r.passed, r.failed)
	if r.failed > 0 {
		log.Fatal("some failed")
	}
}

// The arrays and objects in one another that the library reads.
const mostDepth = 127

func depth(form []byte) int {
	deepest, now, inText := 0, 0, false
	for i := 0; i < len(form); i++ {
		switch {
		case inText && form[i] == '\\':
			i++
		case form[i] == '"':
			inText = !inText
		case !inText && (form[i] == '{' || form[i] == '['):
			now++
		case !inText && (form[i] == '}' || form[i] == ']'):
			now--
		}
		if now > deepest {
			deepest = now
		}
	}
	return deepest
}

// sorted is a JSON text with the members of its objects in order.
func sorted(form []byte) []byte {
	decoder := json.NewDecoder(bytes.NewReader(form))
	decoder.UseNumber()
	var value any
	if err := decoder.Decode(&value); err != nil {
		log.Fatal(err)
	}
	text, err := json.Marshal(value)
	if err != nil {
		log.Fatal(err)
	}
	return text
}

// trees checks that the form of each query, as a tree, gives that form again, and that the tree prints as the canonical line.
func trees(calls []call) {
	report := report{reasons: map[string]int{}}
	for _, it := range calls {
		form, err := promql.JSON(it.query)
		if errors.Is(err, promql.ErrNumberTooWide) {
			continue
		}
		expr, err := promql.FromJSON(form)
		if err != nil {
			report.check(false, "%q: %v", it.query, err)
			continue
		}
		made, err := json.Marshal(expr)
		report.check(err == nil && bytes.Equal(sorted(made), sorted(form)), "another form: %q: %v", it.query, err)
		report.checkLine(it.query, form, expr)
	}
	report.print()
}

func (r *report) checkLine(query string, form []byte, expr promql.Expr) {
	line, err := promql.Print(expr)
	want, _ := promql.Canonical(query)
	if err == nil && line == want {
		r.passed++
		return
	}
	again, _ := promql.JSON(line)
	switch {
	case err != nil && depth(form) >= mostDepth:
		r.reasons["a tree is deeper than the library reads"]++
	case err != nil && bytes.Contains(form, []byte(`"range":0,`)), err == nil && bytes.Equal(form, again):
		r.reasons["a length of time is below a millisecond"]++
	default:
		r.check(false, "another line: %q: %q, %v", query, line, err)
		return
	}
	r.passed++
}

// normal takes out of a tree what means nothing: parentheses, the order of matchers, a matching that says nothing.
func normal(expr promql.Expr) promql.Expr {
	return promql.Transform(expr, func(node promql.Expr) promql.Expr {
		if selection := promql.SelectionOf(node); selection != nil {
			for _, group := range append([]promql.Matchers{selection.Matchers}, selection.OrMatchers...) {
				group := group
				sort.Slice(group, func(i, j int) bool { return fmt.Sprint(group[i]) < fmt.Sprint(group[j]) })
			}
		}
		switch node := node.(type) {
		case *promql.ParenExpr:
			return node.Expr
		case *promql.BinaryExpr:
			if reflect.DeepEqual(node.VectorMatching, &promql.VectorMatching{Card: promql.CardOneToOne}) {
				node.VectorMatching = nil
			}
		}
		return node
	})
}

// nodes are the expressions of a tree, in the order of a walk.
func nodes(expr promql.Expr) []promql.Expr {
	var found []promql.Expr
	promql.Inspect(expr, func(node promql.Expr, _ []promql.Expr) error {
		found = append(found, node)
		return nil
	})
	return found
}

// replaced is a tree with another expression in the place of one of its own.
func replaced(expr, old, other promql.Expr) promql.Expr {
	return promql.Transform(expr, func(node promql.Expr) promql.Expr {
		if node == old {
			return other
		}
		return node
	})
}

// changeAtRandom changes a tree in one place.
func changeAtRandom(random *rand.Rand, expr, other promql.Expr) promql.Expr {
	all := nodes(expr)
	for n := 0; n < 20; n++ {
		node := all[random.Intn(len(all))]
		selection := promql.SelectionOf(node)
		operator, isBinary := node.(*promql.BinaryExpr)
		switch {
		case selection != nil && random.Intn(5) < 3:
			types := []promql.MatchType{promql.MatchEqual, promql.MatchNotEqual, promql.MatchRegexp, promql.MatchNotRegexp}
			values := []string{"", "x", "é|.*", "("}
			selection.AddMatcher(promql.Matcher{Name: string("abc"[random.Intn(3)]), Type: types[random.Intn(4)], Value: values[random.Intn(4)]})
			return expr
		case isBinary && random.Intn(5) < 3:
			operator.LHS, operator.RHS = operator.RHS, operator.LHS
			return expr
		case random.Intn(5) == 0:
			others := nodes(other)
			return replaced(expr, node, others[random.Intn(len(others))])
		}
	}
	return expr
}

// changed checks that trees which are changed at random print a text that reads back as the tree, or tell the expression at fault.
func changed(calls []call, count int, seed int64) {
	report, random := report{reasons: map[string]int{}}, rand.New(rand.NewSource(seed))
	var queries []string
	for _, it := range calls {
		if form, err := promql.JSON(it.query); err == nil && depth(form) < 60 {
			queries = append(queries, it.query)
		}
	}
	tree := func() promql.Expr {
		expr, err := promql.Parse(queries[random.Intn(len(queries))])
		if err != nil {
			log.Fatal(err)
		}
		return expr
	}
	for n := 0; n < count; n++ {
		expr := changeAtRandom(random, tree(), tree())
		form, err := json.Marshal(expr)
		again, wrong := promql.FromJSON(form)
		report.check(err == nil && wrong == nil && reflect.DeepEqual(again, expr), "another form: %s: %v, %v", form, err, wrong)
		report.checkChanged(expr)
	}
	report.print()
}

func (r *report) checkChanged(expr promql.Expr) {
	line, err := promql.Print(expr)
	if err == nil {
		again, wrong := promql.Parse(line)
		r.check(wrong == nil && reflect.DeepEqual(normal(again), normal(expr)), "read otherwise: %q: %v", line, wrong)
		r.reasons["printed"]++
		return
	}
	var fault *promql.NodeError
	named := errors.As(err, &fault) && fault.Message != "" && strings.HasPrefix(fault.Path, "$")
	for _, node := range nodes(expr) {
		if named && node == fault.Node {
			r.passed++
			r.reasons["not printed, with the reason"]++
			return
		}
	}
	r.check(false, "no node: %v", err)
}
