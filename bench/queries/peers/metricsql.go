//go:build metricsql

package main

import "github.com/VictoriaMetrics/metricsql"

// read parses a query, and returns what prints it and counts the bytes.
func read(query string) (func() int, error) {
	expr, err := metricsql.Parse(query)
	return func() int { return len(expr.AppendString(nil)) }, err
}
