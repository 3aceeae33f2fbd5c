package promql_test

import (
	"fmt"
	"os"
	"regexp"
	"strings"
	"testing"
	"time"

	"wellapron.example/promql"
)

// days prints the key of each day of a range query, and whether the answer to it is final: all samples up to known are there.
func days(query string, start, end time.Time, step time.Duration, known time.Time) error {
	line, err := promql.Pin(query, start, end) // promql.ErrGridFunction: do not ask for it in parts
	if err != nil {
		return err
	}
	for first := start; !first.After(end); {
		next, last := first.Truncate(24*time.Hour).Add(24*time.Hour), first
		for last.Add(step).Before(next) && !last.Add(step).After(end) {
			last = last.Add(step)
		}
		windows, err := promql.Windows(line, promql.EvalTimes{Start: first, End: last, Step: step})
		if err != nil {
			return err
		}
		isFinal := true
		for _, it := range windows {
			isFinal = isFinal && (it.Never || !it.Last.After(known))
		}
		fmt.Println(line, first.Unix(), last.Unix(), step, isFinal)
		first = last.Add(step)
	}
	return nil
}

func ExamplePin() {
	start, end := time.Unix(1700000000, 0), time.Unix(1700100000, 0)
	if err := days("rate(a[5m]) / a @ start()", start, end, 5*time.Minute, time.Unix(1700090000, 0)); err != nil {
		fmt.Println(err)
	}
	// Output:
	// rate(a[5m]) / a @ 1700000000.000 1700000000 1700006300 5m0s true
	// rate(a[5m]) / a @ 1700000000.000 1700006600 1700092700 5m0s false
	// rate(a[5m]) / a @ 1700000000.000 1700093000 1700099900 5m0s false
}

// needed returns what a storage is asked for: each selection once, with the times within which it is read.
func needed(query string, times promql.EvalTimes) (map[string]promql.Window, error) {
	windows, err := promql.Windows(query, times)
	if err != nil {
		return nil, err
	}
	asked := map[string]promql.Window{}
	for _, it := range windows {
		tree, err := promql.Parse(it.Selector)
		if err != nil {
			return nil, err
		}
		promql.SelectionOf(tree).Times = promql.Times{} // without offset and @
		text, err := promql.Print(tree)
		if err != nil {
			return nil, err
		}
		before, has := asked[text]
		if has && before.First.Before(it.First) {
			it.First = before.First
		}
		if has && before.Last.After(it.Last) {
			it.Last = before.Last
		}
		if !it.Never {
			asked[text] = it
		}
	}
	return asked, nil
}

func ExampleWindows() {
	times := promql.EvalTimes{Start: time.Unix(1700000000, 0), End: time.Unix(1700003600, 0), Step: time.Minute}
	asked, err := needed(`rate(a{b="c"}[5m]) / rate(a{b="c"}[5m] offset 1d) + d @ end()`, times)
	if err != nil {
		fmt.Println(err)
	}
	for _, it := range []string{`a{b="c"}`, "d"} {
		fmt.Println(it, asked[it].First.UnixMilli(), asked[it].Last.UnixMilli())
	}
	// Output:
	// a{b="c"} 1699913300001 1700003600000
	// d 1700003300001 1700003600000
}

// The programs of the pages are those of this file, which run above.
func TestProgramsOfTheGuide(t *testing.T) {
	source, err := os.ReadFile("guide_test.go")
	if err != nil {
		t.Fatal(err)
	}
	for _, page := range []string{"cache", "planner"} {
		text, err := os.ReadFile("../../docs/guide/" + page + ".md")
		if err != nil {
			t.Fatal(err)
		}
		programs := regexp.MustCompile("(?s)```go\n(func .*?)```\n").FindAllStringSubmatch(string(text), -1)
		if len(programs) != 1 {
			t.Errorf("the page for a %s has %d programs", page, len(programs))
		}
		for _, program := range programs {
			if !strings.Contains(string(source), "\n"+program[1]+"\n") {
				t.Errorf("the page for a %s has another program:\n%s", page, program[1])
			}
		}
	}
}
