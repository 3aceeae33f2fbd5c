//go:build !amd64 && !arm64

// Package otherprocessor does not compile. Package promql imports it where it is built for another processor than those that the library is
// for, so that this is the one error.
package otherprocessor

const _ int = "package promql is for the processors amd64 and arm64 alone"
