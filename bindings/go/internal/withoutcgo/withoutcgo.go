//go:build !cgo

// Package withoutcgo does not compile. Package promql imports it where it is built without cgo, so that what is missing is the one error.
package withoutcgo

const _ int = "package promql needs cgo: CGO_ENABLED=1 and a C compiler"
