// Package label says what the name of a label is.
package label

import "regexp"

var name = regexp.MustCompile(`^[a-zA-Z_][a-zA-Z0-9_]*$`)

// IsName says whether a text is the name of a label.
func IsName(text string) bool {
	return name.MatchString(text)
}
