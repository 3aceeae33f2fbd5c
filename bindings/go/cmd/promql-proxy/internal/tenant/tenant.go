// Package tenant says which values of a label the client of a request may see, and the matcher that allows just these.
package tenant

import (
	"errors"
	"fmt"
	"net/http"
	"net/url"
	"regexp"
	"strconv"
	"strings"
	"unicode/utf8"

	"wellapron.example/promql"
	"wellapron.example/promql/cmd/promql-proxy/internal/failure"
	"wellapron.example/promql/cmd/promql-proxy/internal/label"
)

// The most bytes of a value, and the most values of a request.
const (
	MaxBytes  = 1024
	MaxValues = 64
)

// Tenant is what a client may see: the series whose label has one of the values.
type Tenant struct {
	name   string
	values []string
}

// New returns the tenant of these values, which are checked.
func New(name string, values []string) (Tenant, error) {
	if len(values) > MaxValues {
		return Tenant{}, fmt.Errorf("there are %d tenants, at most %d", len(values), MaxValues)
	}
	seen := map[string]bool{}
	for _, value := range values {
		if err := check(value); err != nil {
			return Tenant{}, err
		}
		if seen[value] {
			return Tenant{}, errors.New("a tenant is there twice")
		}
		seen[value] = true
	}
	if len(values) == 0 {
		return Tenant{}, errors.New("there is no tenant")
	}
	return Tenant{name, values}, nil
}

func check(value string) error {
	switch {
	case value == "":
		return errors.New("the tenant is empty")
	case len(value) > MaxBytes:
		return fmt.Errorf("the tenant has %d bytes, at most %d", len(value), MaxBytes)
	case !utf8.ValidString(value):
		return errors.New("the tenant is not UTF-8")
	case strings.IndexFunc(value, isControl) >= 0:
		return errors.New("the tenant has a control character")
	}
	return nil
}

func isControl(r rune) bool {
	return r < ' ' || r == 0x7f
}

// Matcher returns the matcher, as between the braces of a selector. In a pattern each value is escaped, so that it is only itself.
func (t Tenant) Matcher() string {
	if len(t.values) == 1 {
		return t.name + "=" + strconv.Quote(t.values[0])
	}
	return t.name + "=~" + strconv.Quote(t.pattern())
}

// pattern returns the pattern that matches each of the values, and nothing else.
func (t Tenant) pattern() string {
	escaped := make([]string, len(t.values))
	for i, value := range t.values {
		// The library takes digits after a brace for a count, escaped or not, and rejects a pattern with a great one.
		escaped[i] = strings.ReplaceAll(regexp.QuoteMeta(value), `\{`, `\x7b`)
	}
	return strings.Join(escaped, "|")
}

// Conflicts says whether a matcher names the label in another way: it is neither one of the values nor the matcher of all of them.
func (t Tenant) Conflicts(matcher promql.Matcher) bool {
	switch {
	case matcher.Name != t.name:
		return false
	case matcher.Type == promql.MatchEqual:
		return !t.Allows(map[string]string{t.name: matcher.Value})
	}
	return matcher.Type != promql.MatchRegexp || len(t.values) == 1 || matcher.Value != t.pattern()
}

// Label returns the label that names the tenant.
func (t Tenant) Label() string {
	return t.name
}

// Only returns the value of a tenant that has one alone.
func (t Tenant) Only() (string, bool) {
	return t.values[0], len(t.values) == 1
}

// Allows says whether the matcher allows a series with these labels.
func (t Tenant) Allows(labels map[string]string) bool {
	found, has := labels[t.name]
	for _, value := range t.values {
		if has && value == found {
			return true
		}
	}
	return false
}

// The values that mean themselves in a header that names tenants to another server: no such server takes one of these characters for the end
// of a tenant.
var plain = regexp.MustCompile(`^[A-Za-z0-9!_.*'()-]{1,150}$`)

// Named returns the values as servers of many tenants have them in a header, with a stroke between two.
func (t Tenant) Named() (string, error) {
	for _, value := range t.values {
		if !plain.MatchString(value) || isDots(value) {
			return "", errors.New("the tenant cannot be named in a header: it has at most 150 letters, digits and !-_.*'()")
		}
	}
	return strings.Join(t.values, "|"), nil
}

// isDots says whether a text is a step within a path, as servers read paths.
func isDots(text string) bool {
	return text == "." || text == ".."
}

// String returns the values for the log.
func (t Tenant) String() string {
	return strings.Join(t.values, ",")
}

// Source is where the tenant of a request comes from: a header, a parameter of the address, a segment of the path, or the command line. One
// of the four is set.
type Source struct {
	Label     string
	Header    string
	Parameter string
	// Path is what comes before the tenant in each path, as in /tenants/ for /tenants/team-a/api/v1/query.
	Path  string
	Fixed []string
	// List says that a header, a parameter or a segment has several values, with a comma between them.
	List bool
}

var pathBefore = regexp.MustCompile(`^/([A-Za-z0-9_-]+/)*$`)

// Check says what is wrong with the source.
func (s Source) Check() error {
	if !label.IsName(s.Label) || s.Label == "__name__" {
		return fmt.Errorf("-label: %q is not the name of a label", s.Label)
	}
	if ways := s.ways(); ways != 1 {
		return fmt.Errorf("the tenant comes from one of -tenant, -tenant-header, -tenant-parameter and -tenant-path: %d of them are given", ways)
	}
	if s.List && len(s.Fixed) != 0 {
		return errors.New("-tenant-list is not for -tenant, which may be given several times")
	}
	if s.Path != "" && !pathBefore.MatchString(s.Path) {
		return fmt.Errorf("-tenant-path: %q is no path such as /tenants/", s.Path)
	}
	fixed := s.Fixed
	if len(fixed) == 0 {
		fixed = []string{"a"}
	}
	tried, err := New(s.Label, fixed)
	if err != nil {
		return fmt.Errorf("-tenant: %w", err)
	}
	if _, err := promql.Enforce("up", tried.Matcher()); err != nil {
		return fmt.Errorf("the matcher %s: %w", tried.Matcher(), err)
	}
	return nil
}

// String says for the log where the tenant comes from.
func (s Source) String() string {
	switch {
	case s.Header != "":
		return "header " + s.Header
	case s.Parameter != "":
		return "parameter " + s.Parameter
	case s.Path != "":
		return "path " + s.Path
	}
	return strings.Join(s.Fixed, ",")
}

func (s Source) ways() int {
	ways := 0
	for _, given := range []bool{s.Header != "", s.Parameter != "", s.Path != "", len(s.Fixed) != 0} {
		if given {
			ways++
		}
	}
	return ways
}

// CutPath returns the segment of a path that has the tenant, and the path behind it, which is the whole one where no path has a tenant.
func (s Source) CutPath(path string) (segment, rest string, has bool) {
	if s.Path == "" {
		return "", path, true
	}
	segment, rest, has = strings.Cut(strings.TrimPrefix(path, s.Path), "/")
	return segment, "/" + rest, has && strings.HasPrefix(path, s.Path)
}

// Request is what of a request may name its tenant.
type Request struct {
	Header  http.Header
	Address url.Values
	Body    url.Values
	// Segment is that of the path, as it was written.
	Segment string
}

// Of returns the tenant of a request, and takes its parameter from the address.
func (s Source) Of(request Request) (Tenant, *failure.Error) {
	values := s.Fixed
	if len(values) == 0 {
		value, err := s.one(request)
		if err != nil {
			return Tenant{}, failure.Bad(failure.Tenant, err.Error())
		}
		values = s.split(value)
	}
	found, err := New(s.Label, values)
	if err != nil {
		return Tenant{}, failure.Bad(failure.Tenant, err.Error())
	}
	return found, nil
}

// The characters of a segment that are the same however a front reads the path.
var segment = regexp.MustCompile(`^[A-Za-z0-9._~,-]*$`)

// one returns the value of the header, the parameter or the segment, which is there once. A front that looks at addresses does not see a
// parameter of the body, so that is none.
func (s Source) one(r Request) (string, error) {
	if s.Path != "" {
		if !segment.MatchString(r.Segment) || isDots(r.Segment) {
			return "", errors.New("the tenant in the path has letters, digits and -._~ alone")
		}
		return r.Segment, nil
	}
	where, found := "header "+s.Header, r.Header.Values(s.Header)
	if s.Parameter != "" {
		where, found = "parameter "+s.Parameter, r.Address[s.Parameter]
		delete(r.Address, s.Parameter)
		if r.Body.Has(s.Parameter) {
			return "", fmt.Errorf("the %s is in the body: it belongs into the address", where)
		}
	}
	if len(found) != 1 {
		return "", fmt.Errorf("there has to be one %s, for the tenant: there are %d", where, len(found))
	}
	return found[0], nil
}

func (s Source) split(value string) []string {
	if !s.List {
		return []string{value}
	}
	values := strings.Split(value, ",")
	for i := range values {
		values[i] = strings.Trim(values[i], " \t")
	}
	return values
}
