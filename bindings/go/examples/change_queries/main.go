// Change_queries changes the queries on standard input, one a line: each selector gets a matcher of a label, a metric gets another name, and
// all is summed by a label. It prints for each query the metrics that it names, and the changed query, or "not changed".
//
//	change_queries LABEL VALUE OLD NEW BY
//
//	$ echo 'rate(foo[5m]) / bar' | change_queries tenant team-a foo foo_total job
//	bar foo: sum by (job) (rate(foo_total{tenant="team-a"}[5m]) / bar{tenant="team-a"})
package main

import (
	"bufio"
	"fmt"
	"os"
	"sort"
	"strings"

	"wellapron.example/promql"
)

// change is what is done to a query.
type change struct {
	matcher  promql.Matcher
	from, to promql.Name
	by       string
}

// apply returns the text of a query that was changed, with the names that it had.
func (c change) apply(query string) (string, error) {
	expr, err := promql.Parse(query)
	if err != nil {
		return "", err
	}
	names := namesIn(expr)
	promql.Inspect(expr, func(node promql.Expr, _ []promql.Expr) error {
		if selection := promql.SelectionOf(node); selection != nil {
			selection.AddMatcher(c.matcher)
			if selection.Name == c.from {
				selection.Name = c.to
			}
		}
		return nil
	})
	line, err := promql.Print(&promql.AggregateExpr{Op: "sum", Expr: expr, Grouping: []string{c.by}})
	return strings.Join(names, " ") + ": " + line, err
}

// namesIn returns the names before braces, each once and in order.
func namesIn(expr promql.Expr) []string {
	var names []string
	found := map[promql.Name]bool{"": true}
	promql.Inspect(expr, func(node promql.Expr, _ []promql.Expr) error {
		if selection := promql.SelectionOf(node); selection != nil && !found[selection.Name] {
			found[selection.Name] = true
			names = append(names, string(selection.Name))
		}
		return nil
	})
	sort.Strings(names)
	return names
}

func main() {
	if len(os.Args) != 6 {
		fmt.Fprintln(os.Stderr, "usage: change_queries LABEL VALUE OLD NEW BY")
		os.Exit(64)
	}
	matcher := promql.Matcher{Name: os.Args[1], Type: promql.MatchEqual, Value: os.Args[2]}
	wanted := change{matcher, promql.Name(os.Args[3]), promql.Name(os.Args[4]), os.Args[5]}
	status := 0
	lines := bufio.NewScanner(os.Stdin)
	lines.Buffer(nil, 1<<20)
	for lines.Scan() {
		changed, err := wanted.apply(lines.Text())
		if err != nil {
			fmt.Println("not changed")
			fmt.Fprintln(os.Stderr, err)
			status = 1
			continue
		}
		fmt.Println(changed)
	}
	if err := lines.Err(); err != nil {
		fmt.Fprintln(os.Stderr, err)
		status = 1
	}
	os.Exit(status)
}
