// Bench prints nanoseconds a query of Check and of Canonical, of Parse, and of Print of its tree, for the queries of a file, one a line, those
// without patterns and those with patterns apart. bindings/bench.sh runs it beside those of the other languages.
//
//	bench FILE [RUNS]
package main

import (
	"fmt"
	"log"
	"os"
	"strconv"
	"strings"
	"time"

	"wellapron.example/promql"
)

const times = 20

func hasPattern(query string) bool {
	return strings.Contains(query, "=~") || strings.Contains(query, "!~")
}

// choose returns the lines that have patterns, or those that have none.
func choose(lines []string, withPatterns bool) []string {
	var chosen []string
	for _, line := range lines {
		if hasPattern(line) == withPatterns {
			chosen = append(chosen, line)
		}
	}
	return chosen
}

func pass[T any](call func(T) error, queries []T) {
	for _, query := range queries {
		if err := call(query); err != nil {
			log.Fatalf("%v: %v", query, err)
		}
	}
}

// measure returns the least nanoseconds a query of all runs.
func measure[T any](call func(T) error, queries []T, runs int) int64 {
	least := time.Duration(1<<63 - 1)
	for n := 0; n < runs; n++ {
		start := time.Now()
		for i := 0; i < times; i++ {
			pass(call, queries)
		}
		if taken := time.Since(start); taken < least {
			least = taken
		}
	}
	return least.Nanoseconds() / int64(times*len(queries))
}

func canonical(query string) error {
	_, err := promql.Canonical(query)
	return err
}

func parse(query string) error {
	_, err := promql.Parse(query)
	return err
}

func print(expr promql.Expr) error {
	_, err := promql.Print(expr)
	return err
}

func treesOf(queries []string) []promql.Expr {
	trees := make([]promql.Expr, len(queries))
	for i, query := range queries {
		expr, err := promql.Parse(query)
		if err != nil {
			log.Fatalf("%s: %v", query, err)
		}
		trees[i] = expr
	}
	return trees
}

func main() {
	text, err := os.ReadFile(os.Args[1])
	if err != nil {
		log.Fatal(err)
	}
	runs := 60
	if len(os.Args) > 2 {
		if runs, err = strconv.Atoi(os.Args[2]); err != nil {
			log.Fatal(err)
		}
	}
	lines := strings.Split(strings.TrimSpace(string(text)), "\n")
	for _, kind := range []string{"plain", "patterns"} {
		queries := choose(lines, kind == "patterns")
		fmt.Println("check", kind, measure(promql.Check, queries, runs))
		fmt.Println("line", kind, measure(canonical, queries, runs))
		fmt.Println("tree", kind, measure(parse, queries, runs))
		fmt.Println("text", kind, measure(print, treesOf(queries), runs))
	}
}
