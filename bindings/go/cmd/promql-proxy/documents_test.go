package main

import (
	"errors"
	"flag"
	"io"
	"io/fs"
	"net/http"
	"os"
	"regexp"
	"sort"
	"strings"
	"testing"
	"time"

	"wellapron.example/promql/cmd/promql-proxy/internal/endpoint"
	"wellapron.example/promql/cmd/promql-proxy/internal/metrics"
)

// guide returns the page for the users of the proxy.
func guide(t *testing.T) string {
	t.Helper()
	text, err := os.ReadFile("../../../../docs/guide/proxy.md")
	if err != nil {
		t.Fatal(err)
	}
	return string(text)
}

// firsts returns what the rows of the page's tables begin with, where the pattern finds it there.
func firsts(t *testing.T, pattern string) []string {
	t.Helper()
	var found []string
	for _, row := range regexp.MustCompile("(?m)^\\| `"+pattern).FindAllStringSubmatch(guide(t), -1) {
		found = append(found, row[1])
	}
	sort.Strings(found)
	return found
}

// The page has each option, with its default, and no other.
func TestOptionsOfThePage(t *testing.T) {
	shown := map[string]string{"32768": "32 KiB", "1048576": "1 MiB", "33554432": "32 MiB", "16000": "16,000", "268435456": "256 MiB", "2m0s": "`2m`", "10m0s": "`10m`", "24h0m0s": "`24h`", "false": "off", "": "none", "0s": "`0`"}
	var wanted []string
	(&options{}).flags(io.Discard).VisitAll(func(it *flag.Flag) {
		wanted = append(wanted, it.Name)
		value, has := shown[it.DefValue]
		if !has {
			value = "`" + it.DefValue + "`"
		}
		if it.Name != "version" && !strings.Contains(guide(t), "| `-"+it.Name+"` | "+value+" |") {
			t.Errorf("-%s: the page does not say that the default is %s", it.Name, value)
		}
	})
	sort.Strings(wanted)
	if found := firsts(t, "-([a-z-]+)`"); strings.Join(found, " ") != strings.Join(wanted, " ") {
		t.Errorf("the page has %v, and not %v", found, wanted)
	}
}

// The page has each path that is served.
func TestPathsOfThePage(t *testing.T) {
	table := endpoint.NewTable(nil)
	table.AddAlertmanager()
	named := strings.NewReplacer("NAME", "job", "ID", "01234567-89ab-cdef-0123-456789abcdef")
	paths := firsts(t, "(/[^`]+)`")
	for _, path := range paths {
		if table.Find(named.Replace(path)) == nil {
			t.Errorf("%s is not served", path)
		}
	}
	if len(paths) != 18 {
		t.Errorf("the page has %v", paths)
	}
}

// The page has each metric.
func TestMetricsOfThePage(t *testing.T) {
	var page strings.Builder
	if _, err := metrics.New(time.Now()).WriteTo(&page); err != nil {
		t.Fatal(err)
	}
	for _, found := range regexp.MustCompile(`(?m)^# TYPE (\S+)`).FindAllStringSubmatch(page.String(), -1) {
		if !strings.Contains(guide(t), "`"+found[1]+"`") {
			t.Errorf("the page does not have %s", found[1])
		}
	}
}

// The commands of the page have options that are right.
func TestCommandsOfThePage(t *testing.T) {
	text := strings.ReplaceAll(guide(t), "\\\n", " ")
	commands := regexp.MustCompile(`(?m)^(?:ExecStart=\S*|\./)promql-proxy (.*)$`).FindAllStringSubmatch(text, -1)
	for _, command := range commands {
		o, err := read(strings.Fields(command[1]), io.Discard)
		if err == nil {
			err = o.check()
		}
		// (the files of the page are not on this machine)
		if err != nil && !errors.Is(err, fs.ErrNotExist) || http.CanonicalHeaderKey(o.tenants.Header) != "X-Tenant" {
			t.Errorf("%s: %v", command[1], err)
		}
	}
	if len(commands) != 3 {
		t.Errorf("%q", commands)
	}
}
