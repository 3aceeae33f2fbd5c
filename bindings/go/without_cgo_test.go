package promql_test

import (
	"os"
	"os/exec"
	"strings"
	"testing"
)

func TestBuildWithoutCgo(t *testing.T) {
	if _, err := exec.LookPath("go"); err != nil {
		t.Skip("there is no go here")
	}
	for _, folder := range []string{".", "./cmd/promql-proxy"} {
		build := exec.Command("go", "build", "-o", os.DevNull, folder)
		build.Env = append(os.Environ(), "CGO_ENABLED=0")
		said, err := build.CombinedOutput()
		lines := strings.Split(strings.TrimSpace(string(said)), "\n")
		if err == nil || len(lines) != 2 || !strings.Contains(lines[1], "package promql needs cgo: CGO_ENABLED=1 and a C compiler") {
			t.Errorf("%s: %v, %s", folder, err, said)
		}
	}
}

// The package is for two processors, and imports for any other one a package that does not compile.
func TestBuildForAnotherProcessor(t *testing.T) {
	if _, err := exec.LookPath("go"); err != nil {
		t.Skip("there is no go here")
	}
	const otherProcessor = "wellapron.example/promql/internal/otherprocessor"
	for _, processor := range []string{"amd64", "arm64", "riscv64", "386"} {
		list := exec.Command("go", "list", "-f", "{{join .Imports \" \"}}", ".")
		list.Env = append(os.Environ(), "CGO_ENABLED=1", "GOARCH="+processor)
		said, err := list.Output()
		isOther := processor != "amd64" && processor != "arm64"
		if err != nil || strings.Contains(string(said), otherProcessor) != isOther {
			t.Errorf("%s: %v, %s", processor, err, said)
		}
	}
	build := exec.Command("go", "build", otherProcessor)
	build.Env = append(os.Environ(), "CGO_ENABLED=0", "GOARCH=riscv64")
	if said, err := build.CombinedOutput(); err == nil || !strings.Contains(string(said), "package promql is for the processors amd64 and arm64 alone") {
		t.Errorf("%v, %s", err, said)
	}
}
