//go:build prometheus

package main

import "github.com/prometheus/prometheus/promql/parser"

// read parses a query, and returns what prints it and counts the bytes.
func read(query string) (func() int, error) {
	expr, err := parser.ParseExpr(query)
	return func() int { return len(expr.String()) }, err
}
