package promql

// The library is in the folder of this package in a module that fork.sh or file_proxy.sh made, and `go mod vendor` copies that, too.

// #cgo LDFLAGS: -L${SRCDIR}/internal/x86_64 -L${SRCDIR}/../../dist/x86_64 -l:libpromql.a
import "C"

import _ "wellapron.example/promql/internal/x86_64"
