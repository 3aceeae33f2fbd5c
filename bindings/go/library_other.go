//go:build cgo && !amd64 && !arm64

package promql

// It does not compile, and says for which processors there is a library.
import _ "wellapron.example/promql/internal/otherprocessor"
