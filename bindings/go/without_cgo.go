//go:build !cgo

package promql

// It does not compile, and says what is missing.
import _ "wellapron.example/promql/internal/withoutcgo"
