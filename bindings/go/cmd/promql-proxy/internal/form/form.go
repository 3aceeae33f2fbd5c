// Package form reads the parameters of a request: all of them, or an error. What is not read here gets nowhere.
package form

import (
	"errors"
	"fmt"
	"io"
	"mime"
	"net/http"
	"net/url"
	"os"
	"sort"
	"strings"
	"unicode/utf8"

	"wellapron.example/promql/cmd/promql-proxy/internal/failure"
)

// MediaType is that of a body which is read.
const MediaType = "application/x-www-form-urlencoded"

// The most parameters of an address, and of a body, and the most bytes of one that has no limit of its own.
const (
	maxParameters = 1000
	maxValue      = 4096
)

// JSONType is that of a body which is read as JSON.
const JSONType = "application/json"

// Sent is what a request has: the parameters of its address, and its body, which is a form or JSON.
type Sent struct {
	Address, Form url.Values
	JSON          []byte
}

// Read returns what a request has, with a body of this type that has so many bytes at most. Where the method is not POST, the body means
// nothing. It is read all the same, since the server does not see a client leave whose body is not read.
func Read(w http.ResponseWriter, r *http.Request, mediaType string, maxBody int64) (Sent, *failure.Error) {
	sent := Sent{Form: url.Values{}}
	var err error
	if sent.Address, err = parse(r.URL.RawQuery); err != nil {
		return sent, failure.Bad(failure.Parameter, "the address: "+err.Error())
	}
	text, err := io.ReadAll(http.MaxBytesReader(w, r.Body, maxBody))
	if err != nil {
		return sent, unread(err, maxBody)
	}
	if len(text) == 0 || r.Method != http.MethodPost {
		return sent, nil
	}
	if err := checkType(r.Header, mediaType); err != nil {
		return sent, failure.Bad(failure.Body, err.Error())
	}
	if mediaType == JSONType {
		sent.JSON = text
		return sent, nil
	}
	if sent.Form, err = parse(string(text)); err != nil {
		return sent, failure.Bad(failure.Parameter, "the body: "+err.Error())
	}
	return sent, nil
}

func unread(err error, maxBody int64) *failure.Error {
	var tooLarge *http.MaxBytesError
	switch {
	case errors.As(err, &tooLarge):
		message := fmt.Sprintf("the body has more than %d bytes", maxBody)
		return &failure.Error{Status: http.StatusRequestEntityTooLarge, Kind: failure.BadData, Reason: failure.Limit, Message: message}
	case errors.Is(err, os.ErrDeadlineExceeded):
		return &failure.Error{Status: http.StatusRequestTimeout, Kind: failure.Timeout, Reason: failure.Body, Message: "the body did not come in time"}
	}
	return failure.Bad(failure.Body, "the body cannot be read")
}

// checkType says why the body is not one of this type that can be read as it is.
func checkType(header http.Header, mediaType string) error {
	for _, encoding := range header.Values("Content-Encoding") {
		if !strings.EqualFold(encoding, "identity") {
			return errors.New("the body has a Content-Encoding")
		}
	}
	types := header.Values("Content-Type")
	if len(types) == 1 {
		if found, _, err := mime.ParseMediaType(types[0]); err == nil && found == mediaType {
			return nil
		}
	}
	return fmt.Errorf("the body is not %s", mediaType)
}

func parse(text string) (url.Values, error) {
	if strings.Count(text, "&") >= maxParameters {
		return nil, fmt.Errorf("there are more than %d parameters", maxParameters)
	}
	values, err := url.ParseQuery(text)
	if err != nil {
		return nil, err
	}
	for name, all := range values {
		if !utf8.ValidString(name) || !areUTF8(all) {
			return nil, errors.New("a parameter is not UTF-8")
		}
	}
	return values, nil
}

func areUTF8(texts []string) bool {
	for _, text := range texts {
		if !utf8.ValidString(text) {
			return false
		}
	}
	return true
}

// Merge returns the parameters of both, those of the body first, as Prometheus reads them.
func Merge(address, body url.Values) url.Values {
	merged := url.Values{}
	for _, values := range []url.Values{body, address} {
		for name, all := range values {
			merged[name] = append(merged[name], all...)
		}
	}
	return merged
}

// Check says which parameter is neither one of those that may be there once, nor one of those that may be there several times, or is too
// long. The texts of queries and selectors have limits of their own.
func Check(values url.Values, once, several, texts map[string]bool) *failure.Error {
	for _, name := range sorted(values) {
		all := values[name]
		switch {
		case !once[name] && !several[name]:
			return failure.Bad(failure.Parameter, fmt.Sprintf("the parameter %q is not passed on", shortened(name)))
		case once[name] && len(all) != 1:
			return failure.Bad(failure.Parameter, fmt.Sprintf("there has to be one parameter %q", name))
		}
		for _, value := range all {
			if len(value) > maxValue && !texts[name] {
				return failure.Bad(failure.Parameter, fmt.Sprintf("the parameter %q has more than %d bytes", name, maxValue))
			}
		}
	}
	return nil
}

// sorted returns the names in order, so that of several faults the same one is told each time.
func sorted(values url.Values) []string {
	names := make([]string, 0, len(values))
	for name := range values {
		names = append(names, name)
	}
	sort.Strings(names)
	return names
}

// shortened returns a name of the client's for a message.
func shortened(name string) string {
	if len(name) <= 100 {
		return name
	}
	return strings.ToValidUTF8(name[:100], "") + ".."
}
