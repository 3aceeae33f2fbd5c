package promql

import (
	"encoding/json"
	"strconv"
	"strings"
	"unicode/utf16"
	"unicode/utf8"
)

// mostDepth is how many arrays and objects within one another are read.
const mostDepth = 10000

const (
	notJSON     = "not JSON"
	tooDeep     = "nested too deeply"
	notUTF8     = "not valid UTF-8"
	halfOfPair  = "half of a surrogate pair"
	memberTwice = "expected such a member once"
)

// readJSON returns the value of a text: nil, a bool, a json.Number, a string, a []any or a map[string]any. Other than encoding/json it
// rejects what is not valid UTF-8, half of a surrogate pair, and a member that is there twice.
func readJSON(text string) (any, *FormError) {
	reader := jsonReader{text: text}
	value := reader.value(0)
	reader.skipSpace()
	if reader.fault == "" && reader.at < len(text) {
		reader.fail(notJSON)
	}
	if reader.fault != "" {
		return nil, reader.err()
	}
	return value, nil
}

// jsonReader reads a text from a place on. Once there is a fault, what it reads means nothing.
type jsonReader struct {
	text  string
	at    int
	fault string
	// Where the fault is, the innermost step first; made while the calls return.
	steps []string
}

func (r *jsonReader) fail(message string) {
	if r.fault == "" {
		r.fault, r.at = message, len(r.text)
	}
}

// err is the error of the fault. A text that is no JSON has no places.
func (r *jsonReader) err() *FormError {
	if r.fault == notJSON || r.fault == tooDeep {
		return &FormError{"$", r.fault}
	}
	var found strings.Builder
	found.WriteString("$")
	for i := len(r.steps) - 1; i >= 0; i-- {
		found.WriteString(r.steps[i])
	}
	return &FormError{found.String(), r.fault}
}

func (r *jsonReader) skipSpace() {
	for r.at < len(r.text) && strings.IndexByte(" \t\n\r", r.text[r.at]) >= 0 {
		r.at++
	}
}

// eat takes a text that is next.
func (r *jsonReader) eat(text string) bool {
	if strings.HasPrefix(r.text[r.at:], text) {
		r.at += len(text)
		return true
	}
	return false
}

func (r *jsonReader) value(depth int) any {
	r.skipSpace()
	switch {
	case depth > mostDepth:
		r.fail(tooDeep)
	case r.eat("{"):
		return r.object(depth)
	case r.eat("["):
		return r.array(depth)
	case r.eat(`"`):
		return r.string()
	case r.eat("null"):
		return nil
	case r.eat("true"):
		return true
	case r.eat("false"):
		return false
	default:
		return r.number()
	}
	return nil
}

// hasItem tells whether there is another item, after a comma but for the first one; it takes the closing sign where there is none.
func (r *jsonReader) hasItem(isFirst bool, close string) bool {
	r.skipSpace()
	if r.fault != "" || r.eat(close) {
		return false
	}
	if !isFirst && !r.eat(",") {
		r.fail(notJSON)
	}
	return r.fault == ""
}

func (r *jsonReader) array(depth int) any {
	items := []any{}
	for r.hasItem(len(items) == 0, "]") {
		items = append(items, r.value(depth+1))
		if r.fault != "" {
			r.steps = append(r.steps, at("", len(items)-1))
		}
	}
	return items
}

func (r *jsonReader) object(depth int) any {
	members := map[string]any{}
	for r.hasItem(len(members) == 0, "}") {
		name := r.name()
		if r.fault != "" {
			return members
		}
		if _, found := members[name]; found {
			r.fail(memberTwice)
		} else {
			members[name] = r.value(depth + 1)
		}
		if r.fault != "" {
			r.steps = append(r.steps, "."+name)
		}
	}
	return members
}

// name reads the name of a member, and the colon after it.
func (r *jsonReader) name() string {
	r.skipSpace()
	if !r.eat(`"`) {
		r.fail(notJSON)
		return ""
	}
	name := r.string()
	r.skipSpace()
	if !r.eat(":") {
		r.fail(notJSON)
	}
	return name
}

func (r *jsonReader) number() any {
	start := r.at
	for r.at < len(r.text) && strings.IndexByte("+-.0123456789Ee", r.text[r.at]) >= 0 {
		r.at++
	}
	if !isNumber(r.text[start:r.at]) {
		r.fail(notJSON)
	}
	return json.Number(r.text[start:r.at])
}

// isNumber tells whether a text is a number as JSON has it.
func isNumber(text string) bool {
	text = strings.TrimPrefix(text, "-")
	whole := digits(text)
	if whole == 0 || whole > 1 && text[0] == '0' {
		return false
	}
	text = text[whole:]
	if strings.HasPrefix(text, ".") {
		fraction := digits(text[1:])
		if fraction == 0 {
			return false
		}
		text = text[1+fraction:]
	}
	if text == "" {
		return true
	}
	if text[0] != 'e' && text[0] != 'E' {
		return false
	}
	text = text[1:]
	if text != "" && (text[0] == '+' || text[0] == '-') {
		text = text[1:]
	}
	return text != "" && digits(text) == len(text)
}

// digits is how many digits a text begins with.
func digits(text string) int {
	count := 0
	for count < len(text) && '0' <= text[count] && text[count] <= '9' {
		count++
	}
	return count
}

// string reads the rest of a string, after its first quote.
func (r *jsonReader) string() string {
	start, hasEscape := r.at, false
	for r.at < len(r.text) && r.text[r.at] != '"' {
		if r.text[r.at] < ' ' {
			r.fail(notJSON)
			return ""
		}
		if r.text[r.at] == '\\' {
			hasEscape = true
			r.at++
		}
		r.at++
	}
	if r.at >= len(r.text) {
		r.fail(notJSON)
		return ""
	}
	found := r.text[start:r.at]
	r.at++
	if !utf8.ValidString(found) {
		r.fail(notUTF8)
	}
	if hasEscape {
		return r.unescaped(found)
	}
	return found
}

// The characters after a backslash, and what they stand for.
var escapes = map[byte]byte{'"': '"', '\\': '\\', '/': '/', 'b': '\b', 'f': '\f', 'n': '\n', 'r': '\r', 't': '\t'}

// unescaped is a text without its escapes; after each backslash there is another byte.
func (r *jsonReader) unescaped(text string) string {
	var found strings.Builder
	for {
		before, rest, more := strings.Cut(text, `\`)
		found.WriteString(before)
		if !more {
			return found.String()
		}
		if rest[0] == 'u' {
			unit, length := r.unit(rest)
			found.WriteRune(unit)
			text = rest[length:]
			continue
		}
		sign, isKnown := escapes[rest[0]]
		if !isKnown {
			r.fail(notJSON)
		}
		found.WriteByte(sign)
		text = rest[1:]
	}
}

// unit is the character of an escape that text begins with, after its backslash, and the length of the escape: of two for a pair.
func (r *jsonReader) unit(text string) (rune, int) {
	first, isFirst := hex(text)
	if !isFirst {
		r.fail(notJSON)
		return 0, 1
	}
	if !utf16.IsSurrogate(first) {
		return first, 5
	}
	if strings.HasPrefix(text[5:], `\`) {
		if second, isSecond := hex(text[6:]); isSecond {
			if found := utf16.DecodeRune(first, second); found != utf8.RuneError {
				return found, 11
			}
		}
	}
	r.fail(halfOfPair)
	return 0, 5
}

// hex is the number of an escape such as u00e9.
func hex(text string) (rune, bool) {
	if len(text) < 5 || text[0] != 'u' {
		return 0, false
	}
	number, err := strconv.ParseUint(text[1:5], 16, 16)
	return rune(number), err == nil
}
