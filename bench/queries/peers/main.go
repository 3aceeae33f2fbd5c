// Prints how long another parser takes for the queries on standard input, one a line: those without patterns and those with
// patterns apart, to parse them, and to parse and print them. ../README.md says how to build it.
//
// Of each work it prints the least nanoseconds a query of all passes, and the mean, which has the collection of garbage in it. A
// query that the parser rejects is left out, and printed on standard error.
package main

import (
	"bufio"
	"fmt"
	"os"
	"strings"
	"time"
)

const passes = 200

type times struct {
	least, mean time.Duration
}

// measure returns what a pass over the queries takes, and the bytes that it printed if it prints.
func measure(queries []string, prints bool) (took times, bytes int) {
	took.least = time.Duration(1<<63 - 1)
	for pass := 0; pass < passes; pass++ {
		bytes = 0
		begun := time.Now()
		for _, query := range queries {
			printed, err := read(query)
			if err == nil && prints {
				bytes += printed()
			}
		}
		lasted := time.Since(begun)
		took.mean += lasted / passes
		if lasted < took.least {
			took.least = lasted
		}
	}
	return took, bytes
}

func report(kind string, queries []string) {
	if len(queries) == 0 {
		return
	}
	each := time.Duration(len(queries))
	fmt.Printf("%s: %d queries\n", kind, len(queries))
	for _, work := range []string{"parse", "line"} {
		took, bytes := measure(queries, work == "line")
		fmt.Printf("%8s %7d ns/query, mean %7d, %d bytes\n", work, took.least/each, took.mean/each, bytes)
	}
}

func run() error {
	var plain, patterns []string
	lines := bufio.NewScanner(os.Stdin)
	for lines.Scan() {
		query := lines.Text()
		_, err := read(query)
		switch {
		case query == "":
		case err != nil:
			fmt.Fprintln(os.Stderr, "rejected:", query)
		case strings.Contains(query, "=~") || strings.Contains(query, "!~"):
			patterns = append(patterns, query)
		default:
			plain = append(plain, query)
		}
	}
	if err := lines.Err(); err != nil {
		return err
	}
	report("plain", plain)
	report("patterns", patterns)
	return nil
}

func main() {
	if err := run(); err != nil {
		fmt.Fprintln(os.Stderr, err)
		os.Exit(1)
	}
}
