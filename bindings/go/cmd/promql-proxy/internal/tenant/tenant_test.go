package tenant

import (
	"encoding/json"
	"regexp"
	"strings"
	"testing"
	"unicode/utf8"

	"wellapron.example/promql"
)

func TestSourcesThatAreRefused(t *testing.T) {
	for said, source := range map[string]Source{
		`-label: "" is not the name of a label`:         {Fixed: []string{"a"}},
		`-label: "a-b" is not the name of a label`:      {Label: "a-b", Fixed: []string{"a"}},
		`-label: "a\n" is not the name of a label`:      {Label: "a\n", Fixed: []string{"a"}},
		`-label: "__name__" is not the name of a label`: {Label: "__name__", Fixed: []string{"a"}},
		`the tenant comes from one of -tenant, -tenant-header, -tenant-parameter and -tenant-path: 0 of them are given`: {Label: "a"},
		`the tenant comes from one of -tenant, -tenant-header, -tenant-parameter and -tenant-path: 2 of them are given`: {Label: "a", Header: "A", Path: "/"},
		`-tenant: the tenant is empty`:                                      {Label: "a", Fixed: []string{""}},
		`-tenant: a tenant is there twice`:                                  {Label: "a", Fixed: []string{"b", "b"}},
		`-tenant: the tenant is not UTF-8`:                                  {Label: "a", Fixed: []string{"b\xff"}},
		`-tenant: the tenant has a control character`:                       {Label: "a", Fixed: []string{"b\x00"}},
		`-tenant-path: "/a" is no path such as /tenants/`:                   {Label: "a", Path: "/a"},
		`-tenant-path: "/../" is no path such as /tenants/`:                 {Label: "a", Path: "/../"},
		`-tenant-path: "//" is no path such as /tenants/`:                   {Label: "a", Path: "//"},
		`-tenant-list is not for -tenant, which may be given several times`: {Label: "a", Fixed: []string{"b"}, List: true},
	} {
		if err := source.Check(); err == nil || err.Error() != said {
			t.Errorf("%+v: %v", source, err)
		}
	}
	for _, source := range []Source{
		{Label: "tenant", Fixed: []string{"a"}}, {Label: "_a", Fixed: []string{"a", "b"}}, {Label: "a", Header: "X-Tenant", List: true},
		{Label: "a", Parameter: "tenant"}, {Label: "a", Path: "/"}, {Label: "a", Path: "/a/b_c-d/", List: true},
	} {
		if err := source.Check(); err != nil {
			t.Errorf("%+v: %v", source, err)
		}
	}
}

func TestAllows(t *testing.T) {
	found, err := New("tenant", []string{"a", "b.c"})
	if err != nil {
		t.Fatal(err)
	}
	for _, labels := range []map[string]string{{"tenant": "a"}, {"tenant": "b.c", "x": "y"}} {
		if !found.Allows(labels) {
			t.Errorf("%v", labels)
		}
	}
	for _, labels := range []map[string]string{nil, {}, {"tenant": ""}, {"tenant": "A"}, {"tenant": "bxc"}, {"Tenant": "a"}, {"tenant": "a|b.c"}} {
		if found.Allows(labels) {
			t.Errorf("%v", labels)
		}
	}
}

// matcher is a matcher of a query, as its JSON form has it.
type matcher struct{ Name, Type, Value string }

// matchersOf returns the matchers of a query that is one selector.
func matchersOf(t *testing.T, query string) []matcher {
	tree, err := promql.JSON(query)
	if err != nil {
		t.Fatalf("%q: %v", query, err)
	}
	var read struct{ Matchers []matcher }
	if err := json.Unmarshal(tree, &read); err != nil {
		t.Fatal(err)
	}
	return read.Matchers
}

// Whatever two tenants are called, the matcher is read as one matcher, of just their values: as a text, and as a pattern of Go, which
// Prometheus has.
func FuzzMatchers(f *testing.F) {
	for _, values := range [][2]string{
		{"team-a", "team-b"}, {".*", "b"}, {`a"} or {b="`, "c"}, {`\`, `\\`}, {"|", "("}, {"ü\u202e", "\U0001f600"}, {"a{3}", "[^b]"}, {"{1", "000"}, {`\{`, `{9999}`}, {"`", "'"},
	} {
		f.Add(values[0], values[1], "a")
	}
	f.Fuzz(func(t *testing.T, first, second, other string) {
		one, err := New("tenant", []string{first})
		two, failed := New("tenant", []string{first, second})
		if err != nil || failed != nil || !utf8.ValidString(other) {
			return
		}
		single, err := promql.Enforce("up", one.Matcher())
		if err != nil {
			t.Fatalf("%q: %v", first, err)
		}
		if found := matchersOf(t, single); len(found) != 1 || found[0] != (matcher{"tenant", "=", first}) {
			t.Errorf("%q: %v", first, found)
		}
		both, err := promql.Enforce("up", two.Matcher())
		if err != nil {
			t.Fatalf("%q %q: %v", first, second, err)
		}
		found := matchersOf(t, both)
		if len(found) != 1 || found[0].Name != "tenant" || found[0].Type != "=~" {
			t.Fatalf("%q %q: %v", first, second, found)
		}
		pattern := regexp.MustCompile("^(?:" + found[0].Value + ")$")
		for _, value := range []string{first, second, other, first + second, first + "|" + second, strings.ToUpper(first), ""} {
			if pattern.MatchString(value) != (value == first || value == second) {
				t.Errorf("%q %q: %s of %q", first, second, found[0].Value, value)
			}
		}
	})
}
