// Package headers says which headers the server behind gets: those of the client that pass, and those that the proxy sets.
package headers

import (
	"errors"
	"fmt"
	"net/http"
	"regexp"
	"strings"

	"wellapron.example/promql/cmd/promql-proxy/internal/failure"
	"wellapron.example/promql/cmd/promql-proxy/internal/tenant"
)

// Placeholder is what has the tenant in its place in the value of a header that is set.
const Placeholder = "{tenant}"

// Rules have the headers of the command line.
type Rules struct {
	passed []string
	set    map[string]string
}

var name = regexp.MustCompile(`^[A-Za-z][A-Za-z0-9-]*$`)

// IsFree says whether a header has no meaning to HTTP, so that a front may give it one. Its name has no underscore, since some servers take
// one for a hyphen.
func IsFree(header string) bool {
	switch http.CanonicalHeaderKey(header) {
	case "Host", "Connection", "Keep-Alive", "Transfer-Encoding", "Content-Length", "Content-Type", "Content-Encoding", "Trailer", "Te",
		"Upgrade", "Expect", "Accept", "Accept-Encoding", "Range", "If-Range", "User-Agent", "Proxy-Connection", "Proxy-Authorization":
		return false
	}
	return name.MatchString(header)
}

// Pass adds a header of the client that passes.
func (r *Rules) Pass(header string) error {
	if !IsFree(header) || r.Has(header) {
		return fmt.Errorf("%q is not the name of another header that can pass", header)
	}
	r.passed = append(r.passed, http.CanonicalHeaderKey(header))
	return nil
}

// Set adds a header that the proxy sets, as in "X-Scope-OrgID: {tenant}".
func (r *Rules) Set(text string) error {
	header, value, has := strings.Cut(text, ":")
	if !has || !IsFree(header) || r.Has(header) {
		return fmt.Errorf("%q is not the name of another header that can be set, and a colon", header)
	}
	if http.CanonicalHeaderKey(header) == "Authorization" {
		return errors.New("the value of Authorization comes from a file, so that no list of processes shows it")
	}
	value = strings.Trim(value, " \t")
	if value == "" || strings.IndexFunc(value, func(r rune) bool { return r < ' ' || '~' < r }) >= 0 {
		return fmt.Errorf("the value of %s is empty, or has characters other than those of ASCII", header)
	}
	if r.set == nil {
		r.set = map[string]string{}
	}
	r.set[http.CanonicalHeaderKey(header)] = value
	return nil
}

// Passed returns the names of the headers of the client that pass.
func (r *Rules) Passed() []string {
	return r.passed
}

// Has says whether the server behind may get this header.
func (r *Rules) Has(header string) bool {
	header = http.CanonicalHeaderKey(header)
	for _, passed := range r.passed {
		if passed == header {
			return true
		}
	}
	return r.set[header] != ""
}

// NamesTenant says whether a header that is set has the tenant in its value.
func (r *Rules) NamesTenant() bool {
	for _, value := range r.set {
		if strings.Contains(value, Placeholder) {
			return true
		}
	}
	return false
}

// Of returns the headers for the server behind, of a request of this tenant. A client that sends one of them twice could mean one to a front
// and another to the server.
func (r *Rules) Of(client http.Header, of tenant.Tenant) (http.Header, *failure.Error) {
	made := http.Header{}
	for _, header := range r.passed {
		switch values := client.Values(header); len(values) {
		case 0:
		case 1:
			made.Set(header, values[0])
		default:
			return nil, failure.Bad(failure.Header, fmt.Sprintf("there has to be one header %s at most: there are %d", header, len(values)))
		}
	}
	named := ""
	if r.NamesTenant() {
		var err error
		if named, err = of.Named(); err != nil {
			return nil, failure.Bad(failure.Tenant, err.Error())
		}
	}
	for header, value := range r.set {
		made.Set(header, strings.ReplaceAll(value, Placeholder, named))
	}
	return made, nil
}
