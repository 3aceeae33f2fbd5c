// Package promql prints, checks and lays out PromQL, the query language of Prometheus, by a library that is proved.
//
//	key, err := promql.Canonical("sum(rate(foo[5m]))by(job)") // "sum by (job) (rate(foo[5m]))"
//
// A query that is rejected gives a *QueryError, which has the place. Any goroutine may call any function at any time. What is
// proved of the calls, and what is not, is in docs/guide/bindings.md of the repository.
package promql

// The header is beside this file in a module that fork.sh or file_proxy.sh made, and in dist/ in the repository. The library of each
// processor is in library_amd64.go and library_arm64.go.

/*
#cgo CFLAGS: -I${SRCDIR} -I${SRCDIR}/../../dist
#include "promql.h"
*/
import "C"

import (
	"encoding/json"
	"errors"
	"fmt"
	"runtime"
	"strings"
	"sync"
	"unsafe"
)

// Errors that have no place, and ErrTooLarge. Compare with errors.Is.
var (
	// ErrTooLarge says of a *QueryError that the query is too long, or that its patterns are too large together (SetLimits).
	ErrTooLarge = errors.New("query is too large")
	// ErrReadOtherwise says of a *QueryError that the target reads a part of the query otherwise (SetTarget), and of any other error that it
	// reads a part of the matcher so, which such an error says.
	ErrReadOtherwise = errors.New("the target reads it otherwise")
	// ErrRefused says of a *QueryError of Check and Explain that the target rejects a part of the query (SetTarget).
	ErrRefused = errors.New("the target rejects it")
	// ErrWideLayout says that the width of a layout for people is above 65,535. An error that is this one has the number.
	ErrWideLayout = errors.New("the layout is too wide")
	// ErrLevel says that the level of a layout is above 512.
	ErrLevel = errors.New("level is above 512")
	// ErrOutOfMemory says that an allocation of the library failed.
	ErrOutOfMemory = errors.New("out of memory")
	// ErrNotUTF8 says that the query is not UTF-8.
	ErrNotUTF8 = errors.New("input is not UTF-8")
	// ErrNotAMatcher says that a text is no matcher.
	ErrNotAMatcher = errors.New("not a matcher")
	// ErrMetricName says that a matcher is one of the metric's name, __name__, which cannot be enforced.
	ErrMetricName = errors.New("a matcher of the metric name cannot be enforced")
	// ErrUnfaithful says that the query that was made would not mean the changed query.
	ErrUnfaithful = errors.New("the printed query does not mean the changed one")
	// ErrNotATree says that a text is not JSON, or is the form of no tree. An error that is this one says where, as $.lhs.args[0].range, and
	// what was expected there.
	ErrNotATree = errors.New("the text is the form of no tree")
	// ErrTooLargeTree says that the JSON form of a tree is too long (SetMaxTree), or its line is, or that its patterns are too large together
	// (SetLimits). An error that is this one says which.
	ErrTooLargeTree = errors.New("the tree is not within the limits")
	// ErrBareInfo says that a query calls info without a second argument, so that no matcher limits the series that this reads.
	ErrBareInfo = errors.New("info without a selector reads series that no matcher limits")
	// ErrLargeEnforced says that a matcher, or the query with it, is too long, or that its patterns are too large together (SetLimits). An
	// error that is this one says which, and why.
	ErrLargeEnforced = errors.New("the matcher, or the query with it, is not within the limits")
	// ErrLongOutput says that what would be returned is too long (SetMaxOutput). An error that is this one has the numbers.
	ErrLongOutput = errors.New("output is too long")
	// ErrNotAName says that the new name of a metric is none.
	ErrNotAName = errors.New("the new name is no name of a metric")
	// ErrMetricLabel says that the old name or the new one of a label is __name__, which names no label but the metric.
	ErrMetricLabel = errors.New("the label of the metric name cannot be renamed")
	// ErrClash says that one list has both labels, so that they would become one.
	ErrClash = errors.New("both labels are in one list")
	// ErrSmallStack says that the thread has less than 1.25 MiB of stack left, and a query may need as much. Calls run on the stacks
	// of the system's threads, which have as much as `ulimit -s` said when the process began: 8 MiB, mostly.
	ErrSmallStack = errors.New("the thread has less than 1.25 MiB of stack left")
	// ErrUnknownTarget says that no target has a name or a number. An error that is this one says which.
	ErrUnknownTarget = errors.New("the target is unknown")
	// ErrNumberTooWide says that a query has no JSON form: a number of milliseconds is below -2^63 or above 2^64 - 1.
	ErrNumberTooWide = errors.New("number too wide for JSON")
)

// QueryError is why and where a query is rejected: at Query[Start:End], which is empty at the query's end. Line and Column are those
// of Start, from 1; a column is a character.
type QueryError struct {
	Message string
	Query   string
	Start   int
	End     int
	Line    int
	Column  int
	cause   error
}

// Unwrap returns ErrTooLarge where the query is not within its limits, ErrReadOtherwise where the target reads it otherwise, ErrRefused
// where the target rejects it, and else nil.
func (e *QueryError) Unwrap() error {
	return e.cause
}

func (e *QueryError) Error() string {
	return fmt.Sprintf("%d:%d: %s", e.Line, e.Column, e.Message)
}

// Explanation is why a query is rejected, for people. Message says what is wrong; at a syntax error it says what was found and what was
// expected, and what may be meant, and of more than 512 levels what to do about them. Expected has the names of what was expected, as string, "}" or end of query, and Found the token that does
// not fit, as identifier "b", or end of query; of any other error they are empty.
type Explanation struct {
	Message  string `json:"error"`
	Expected []string
	Found    string
}

// told is an explanation as the library tells it, with the place that it is of.
type told struct {
	Explanation
	Line   int
	Column int
}

// Explain returns what is said of the query (docs/guide/bindings.md of the repository, "Why a query is rejected"). It is another call of the
// library, which reads the beginning of the query some sixty times. Where it tells of another place, as with other limits than before, the
// explanation has the message of the error alone.
func (e *QueryError) Explain() Explanation {
	text, result := call(e.Query, func(query *C.char, length C.size_t, buffer *C.char, size C.size_t, result *C.struct_promql_result) {
		C.promql_explain(query, length, 1, buffer, size, result)
	})
	var it told
	if result.status != C.PROMQL_OK || json.Unmarshal([]byte(text), &it) != nil || it.Line != e.Line || it.Column != e.Column {
		return Explanation{Message: e.Message}
	}
	return it.Explanation
}

// Snippet returns the line of the query where the part begins, a line feed, and a mark below that part.
func (e *QueryError) Snippet() string {
	start, end := sizeOf(e.Start), sizeOf(e.End)
	text, _ := call(e.Query, func(query *C.char, length C.size_t, buffer *C.char, size C.size_t, result *C.struct_promql_result) {
		C.promql_snippet(query, length, start, end, buffer, size, result)
	})
	return text
}

// explained is an error of this package with the message of the library.
type explained struct {
	message string
	cause   error
}

func (e explained) Error() string {
	return e.message
}

func (e explained) Unwrap() error {
	return e.cause
}

// Option is how Format lays a query out.
type Option func(*layout)

type layout struct {
	width         uint64
	level         uint16
	sortsMatchers bool
}

// Width sets the most bytes that a line has after its indentation by Level, where that can be: 100 without this option.
func Width(bytes uint) Option {
	return func(l *layout) { l.width = uint64(bytes) }
}

// Level indents each line by so many times two spaces.
func Level(level uint16) Option {
	return func(l *layout) { l.level = level }
}

// SortMatchers has FormatQuery sort the matchers of each selector, unless the spelling is kept. It does nothing for Format.
func SortMatchers() Option {
	return func(l *layout) { l.sortsMatchers = true }
}

// Canonical returns the query on one line, the same for each spelling of the query: the key of a cache.
func Canonical(query string) (string, error) {
	return textOf(query, func(query *C.char, length C.size_t, buffer *C.char, size C.size_t, result *C.struct_promql_result) {
		C.promql_canonical(query, length, buffer, size, result)
	})
}

// Format returns the query, laid out over several lines where one would have more bytes than Width.
func Format(query string, options ...Option) (string, error) {
	made := layout{width: 100}
	for _, set := range options {
		set(&made)
	}
	return textOf(query, func(query *C.char, length C.size_t, buffer *C.char, size C.size_t, result *C.struct_promql_result) {
		C.promql_print(query, length, C.PROMQL_PRETTY, C.uint32_t(made.level), C.size_t(made.width), buffer, size, result)
	})
}

// FormatQuery returns the query, laid out for people (docs/reference/formatting.md of the repository): comments stay, chains of operators are
// flat, and a line has at most Width characters, its indentation counted, where it can be broken: at most 65,535. With keepSpelling numbers, durations,
// strings and the order of what is written stay, too. Level does nothing here. What is returned was read again, and has the query's
// tree and comments.
func FormatQuery(query string, keepSpelling bool, options ...Option) (string, error) {
	made := layout{width: 100}
	for _, set := range options {
		set(&made)
	}
	var kept C.uint32_t
	switch {
	case keepSpelling:
		kept = 1
	case made.sortsMatchers:
		kept = C.PROMQL_SORTED_MATCHERS
	}
	text, result := call(query, func(query *C.char, length C.size_t, buffer *C.char, size C.size_t, result *C.struct_promql_result) {
		C.promql_format_query(query, length, C.size_t(made.width), 2, kept, buffer, size, result)
	})
	if result.status == C.PROMQL_UNKNOWN_MODE {
		return "", explained{text, ErrWideLayout}
	}
	return textOrError(query, text, result)
}

// JSON returns the tree of the query in its JSON form (docs/reference/json.md of the repository), without a space.
func JSON(query string) ([]byte, error) {
	return printForm(query, C.PROMQL_JSON)
}

// PlacedJSON returns what JSON returns, with the places of nodes and matchers: query[start:end] is the part of the text that has the
// node or the matcher, by the members "start" and "end" of its object (docs/reference/json.md of the repository, "Places"). PrintTree and
// FromJSON take no such form.
func PlacedJSON(query string) ([]byte, error) {
	return printForm(query, C.PROMQL_PLACED_JSON)
}

func printForm(query string, mode C.uint32_t) ([]byte, error) {
	text, err := formText(query, mode)
	if err != nil {
		return nil, err
	}
	return []byte(text), nil
}

// jsonText returns what JSON returns.
func jsonText(query string) (string, error) {
	return formText(query, C.PROMQL_JSON)
}

func formText(query string, mode C.uint32_t) (string, error) {
	room := formRoomPerByte * len(query)
	if room > mostRoom {
		room = mostRoom
	}
	text, result := callOver(bytesOf(query), room, func(query *C.char, length C.size_t, buffer *C.char, size C.size_t, result *C.struct_promql_result) {
		C.promql_print(query, length, mode, 0, 0, buffer, size, result)
	})
	return textOrError(query, text, result)
}

// Enforce returns the query on one line with a matcher in every selector, in each of its or-groups: that of a tenant, say. The matcher is
// written as between the braces of a selector: namespace="team-a". What is returned is within the limits of a query, and means the
// changed query (docs/guide/rewriting.md of the repository).
func Enforce(query, matcher string) (string, error) {
	bytes := append(make([]byte, 0, len(matcher)+1), matcher...)
	first := (*C.char)(unsafe.Pointer(&bytes[:1][0]))
	text, err := textOf(query, func(query *C.char, length C.size_t, buffer *C.char, size C.size_t, result *C.struct_promql_result) {
		C.promql_enforce(query, length, first, C.size_t(len(bytes)), buffer, size, result)
	})
	runtime.KeepAlive(bytes)
	return text, err
}

// RenameMetric returns the query on one line with the metric from named to: before braces, and in equal matchers of __name__. What is
// returned is within the limits of a query, was read again, and means the renamed query (docs/guide/rewriting.md of the repository). The
// error is ErrNotAName where the new name is none of a metric, such as a.b.
func RenameMetric(query, from, to string) (string, error) {
	return rename(query, C.PROMQL_METRIC, from, to)
}

// RenameLabel returns the query on one line with the label from named to: in matchers, and in the lists of aggregations and operators.
// Strings stay as they are. The error is ErrMetricLabel where one of the names is __name__, and ErrClash where one list has both labels.
func RenameLabel(query, from, to string) (string, error) {
	return rename(query, C.PROMQL_LABEL, from, to)
}

func rename(query string, kind C.uint32_t, from, to string) (string, error) {
	names := append(append(make([]byte, 0, len(from)+len(to)+1), from...), to...)
	first := unsafe.Pointer(&names[:1][0])
	text, err := textOf(query, func(query *C.char, length C.size_t, buffer *C.char, size C.size_t, result *C.struct_promql_result) {
		C.promql_rename(query, length, kind, (*C.char)(first), C.size_t(len(from)), (*C.char)(unsafe.Add(first, len(from))), C.size_t(len(to)),
			buffer, size, result)
	})
	runtime.KeepAlive(names)
	return text, err
}

// Names is what a query names: its functions, labels and metrics, each once and in order, and its selectors.
type Names struct {
	Functions []string
	Labels    []string
	Metrics   []string
	Selectors []Selector
}

// Selector is a selector of a query: its name before the braces, its matchers, and its times as they print. A pointer is nil where there is
// none of it.
type Selector struct {
	Name     *string
	Matchers string
	Range    *string
	Offset   *string
	At       *string
}

// Collect returns what the query names (docs/guide/bindings.md of the repository, "What a query names").
func Collect(query string) (*Names, error) {
	text, err := textOf(query, func(query *C.char, length C.size_t, buffer *C.char, size C.size_t, result *C.struct_promql_result) {
		C.promql_collect(query, length, buffer, size, result)
	})
	if err != nil {
		return nil, err
	}
	var names Names
	if err := json.Unmarshal([]byte(text), &names); err != nil {
		return nil, err
	}
	return &names, nil
}

// Check returns nil where the query is accepted.
func Check(query string) error {
	_, err := textOf(query, func(query *C.char, length C.size_t, buffer *C.char, size C.size_t, result *C.struct_promql_result) {
		C.promql_check(query, length, buffer, size, result)
	})
	return err
}

// Version returns the version of the library.
func Version() string {
	text, _ := call("", func(_ *C.char, _ C.size_t, buffer *C.char, size C.size_t, result *C.struct_promql_result) {
		C.promql_version(buffer, size, result)
	})
	return text
}

// function is a call of the library: its query, its buffer and its result.
type function func(query *C.char, length C.size_t, buffer *C.char, size C.size_t, result *C.struct_promql_result)

// The first buffer has firstSize bytes, and roomPerByte more for each byte of the query, or formRoomPerByte for its form, up to mostRoom: most
// texts have fewer, so a call is made once.
const (
	firstSize       = 1024
	roomPerByte     = 4
	formRoomPerByte = 16
	mostRoom        = 1 << 24
)

// call makes a call with a buffer that is large enough, and returns the text and the result.
func call(query string, f function) (string, C.struct_promql_result) {
	return callOver(bytesOf(query), roomPerByte*len(query), f)
}

// bytesOf returns the bytes of a text, of which there is room for one at least.
func bytesOf(text string) []byte {
	return append(make([]byte, 0, len(text)+1), text...)
}

// callOver makes a call over bytes, which have room for one at least, with so much room for its text beside firstSize.
func callOver(bytes []byte, room int, f function) (string, C.struct_promql_result) {
	first := (*C.char)(unsafe.Pointer(&bytes[:1][0]))
	var result C.struct_promql_result
	buffer := bufferOf(firstSize + room)
	for {
		f(first, C.size_t(len(bytes)), (*C.char)(unsafe.Pointer(&(*buffer)[0])), C.size_t(len(*buffer)), &result)
		if int(result.length) <= len(*buffer) {
			runtime.KeepAlive(bytes)
			text := string((*buffer)[:result.length])
			leaveBuffer(buffer)
			return text, result
		}
		leaveBuffer(buffer)
		buffer = bufferOf(int(result.length))
	}
}

// buffers has buffers of calls that ended, of mostPooled bytes at most.
var buffers sync.Pool

const mostPooled = 1 << 16

// bufferOf returns a buffer of at least so many bytes.
func bufferOf(size int) *[]byte {
	if buffer, isThere := buffers.Get().(*[]byte); isThere && len(*buffer) >= size {
		return buffer
	}
	buffer := make([]byte, size)
	return &buffer
}

func leaveBuffer(buffer *[]byte) {
	if len(*buffer) <= mostPooled {
		buffers.Put(buffer)
	}
}

// SetLimits sets what each later query has to be within, in this process: at most so many bytes, 32,768 before the first call, and
// patterns of at most this size together, 16,000. A query that is not gives a *QueryError that is ErrTooLarge, before it is parsed. A
// matcher that is enforced, and the query with it, have the same limits; where they are not within them the error is ErrLargeEnforced.
func SetLimits(maxLen, maxPatterns uint) {
	C.promql_set_limits(C.size_t(maxLen), C.size_t(maxPatterns))
}

// Target is what reads the queries that are sent on (docs/reference/programs.md of the repository, "Targets").
type Target uint32

const (
	// Prometheus3 is a Prometheus, which reads some parts of queries otherwise, as -0 and "\xc3".
	Prometheus3 Target = C.PROMQL_PROMETHEUS_3
	// Rules are the rules of this library alone.
	Rules Target = C.PROMQL_RULES
	// Prometheus2 is Prometheus 2.42, which also rejects what came later.
	Prometheus2 Target = C.PROMQL_PROMETHEUS_2
)

// ParseTarget returns the target of this name: "prometheus-3", "prometheus-2.42" or "rules". The error is ErrUnknownTarget where it is another.
func ParseTarget(name string) (Target, error) {
	switch name {
	case "prometheus-3":
		return Prometheus3, nil
	case "prometheus-2.42":
		return Prometheus2, nil
	case "rules":
		return Rules, nil
	}
	return 0, explained{fmt.Sprintf("no target is called %q: prometheus-3, prometheus-2.42, rules", name), ErrUnknownTarget}
}

// SetTarget sets what reads each later query that Enforce, RenameMetric, RenameLabel and FormatQuery return and Check checks, in this
// process: Prometheus3 before the first call. A query that it reads otherwise gives a *QueryError that is ErrReadOtherwise, and a matcher an
// error that is it. A query that it rejects gives Check one that is ErrRefused.
func SetTarget(target Target) error {
	if C.promql_set_target(C.uint32_t(target)) != C.PROMQL_OK {
		return explained{fmt.Sprintf("no target has the number %d", target), ErrUnknownTarget}
	}
	return nil
}

// SetMaxOutput sets how many bytes what Canonical, Format, Pin, JSON and PlacedJSON return has at most, in this process: 4,194,304 before the
// first call. Where there are more the error is ErrLongOutput.
func SetMaxOutput(bytes uint) {
	C.promql_set_max_output(C.size_t(bytes))
}

// SetMaxTree sets how many bytes the JSON form of a tree that is printed has at most, in this process: 4,194,304 before the first call.
// Where there are more, or its patterns are larger than those of a query may be, the error is ErrTooLargeTree, before anything of it is
// compiled.
func SetMaxTree(bytes uint) {
	C.promql_set_max_tree(C.size_t(bytes))
}

// textOf makes a call and returns its text, or its error.
func textOf(query string, f function) (string, error) {
	text, result := call(query, f)
	return textOrError(query, text, result)
}

// textOrError returns the text of a call, or its error.
func textOrError(query, text string, result C.struct_promql_result) (string, error) {
	switch result.status {
	case C.PROMQL_OK:
		return text, nil
	case C.PROMQL_OUT_OF_MEMORY:
		return "", ErrOutOfMemory
	case C.PROMQL_NOT_UTF8:
		return "", ErrNotUTF8
	case C.PROMQL_UNKNOWN_MODE:
		return "", ErrLevel
	case C.PROMQL_REJECTED, C.PROMQL_TOO_LARGE, C.PROMQL_READ_OTHERWISE, C.PROMQL_REFUSED:
		if result.line == 0 {
			return "", explained{text, ErrReadOtherwise}
		}
		var cause error
		switch result.status {
		case C.PROMQL_TOO_LARGE:
			cause = ErrTooLarge
		case C.PROMQL_READ_OTHERWISE:
			cause = ErrReadOtherwise
		case C.PROMQL_REFUSED:
			cause = ErrRefused
		}
		return "", &QueryError{
			Message: text,
			Query:   query,
			Start:   int(result.start),
			End:     int(result.end),
			Line:    int(result.line),
			Column:  int(result.column),
			cause:   cause,
		}
	case C.PROMQL_NUMBER_TOO_WIDE:
		return "", ErrNumberTooWide
	case C.PROMQL_BAD_MATCHER:
		if reason := strings.TrimPrefix(text, ErrNotAMatcher.Error()); reason != text {
			return "", fmt.Errorf("%w%s", ErrNotAMatcher, reason)
		}
		return "", ErrMetricName
	case C.PROMQL_UNFAITHFUL:
		return "", fmt.Errorf("%w: %s", ErrUnfaithful, text)
	case C.PROMQL_BARE_INFO:
		return "", ErrBareInfo
	case C.PROMQL_LARGE_ENFORCED:
		return "", explained{text, ErrLargeEnforced}
	case C.PROMQL_LONG_OUTPUT:
		return "", explained{text, ErrLongOutput}
	case C.PROMQL_NOT_A_NAME:
		return "", ErrNotAName
	case C.PROMQL_METRIC_LABEL:
		return "", ErrMetricLabel
	case C.PROMQL_CLASH:
		return "", ErrClash
	case C.PROMQL_TIME_OVERFLOW:
		return "", explained{text, ErrTimeOverflow}
	case C.PROMQL_GRID_FUNCTION:
		return "", ErrGridFunction
	case C.PROMQL_SMALL_STACK:
		return "", ErrSmallStack
	}
	panic(fmt.Sprintf("promql: status %d: %s", result.status, text))
}

// sizeOf returns a number as the library has it, 0 for one below.
func sizeOf(number int) C.size_t {
	if number < 0 {
		return 0
	}
	return C.size_t(number)
}
