package promql

/*
#include "promql.h"
*/
import "C"

import "encoding/json"

// TokenKind says what a token is.
type TokenKind string

// The kinds of tokens.
const (
	// AggregatorToken is sum and its like.
	AggregatorToken TokenKind = "aggregator"
	// CommentToken goes from # up to the end of its line.
	CommentToken TokenKind = "comment"
	// DurationToken is as 5m.
	DurationToken TokenKind = "duration"
	// ErrorToken is what no token begins with.
	ErrorToken TokenKind = "error"
	// KeywordToken is by, offset and their like.
	KeywordToken TokenKind = "keyword"
	// NameToken is the name of a metric, a label or a function.
	NameToken TokenKind = "name"
	// NumberToken is a number.
	NumberToken TokenKind = "number"
	// OperatorToken is an operator between expressions or in a matcher, also and and @.
	OperatorToken TokenKind = "operator"
	// PunctuationToken is a bracket, a comma or a colon.
	PunctuationToken TokenKind = "punctuation"
	// StringToken is a string with its quotes.
	StringToken TokenKind = "string"
)

// Token is a token of a text: its kind, and its bytes.
type Token struct {
	Kind TokenKind
	Place
}

// PartKind says what a part of a node is (docs/reference/walks.md of the repository, "Parts of nodes").
type PartKind string

// The kinds of parts.
const (
	// NamePart is the name of a function, or of a metric before braces.
	NamePart PartKind = "name"
	// OperatorPart is that of an aggregation, or of a unary or a binary expression.
	OperatorPart PartKind = "operator"
	// SelectorPart is what a range follows.
	SelectorPart PartKind = "selector"
	// MatcherPart goes from the label of a matcher through its value, or is the name of a metric as a string.
	MatcherPart PartKind = "matcher"
	// LabelPart is a label of by, without, on or ignoring.
	LabelPart PartKind = "label"
	// GroupLabelPart is a label of group_left or group_right.
	GroupLabelPart PartKind = "groupLabel"
	// RangePart is a range with its brackets.
	RangePart PartKind = "range"
	// OffsetPart is offset with its duration.
	OffsetPart PartKind = "offset"
	// AtPart is @ with its time.
	AtPart PartKind = "at"
	// ModePart is smoothed or anchored.
	ModePart PartKind = "mode"
)

// Part is a part of a node: its kind, and its bytes in the query.
type Part struct {
	Kind PartKind
	Place
}

// Difference is a part of a query that the target reads otherwise, or rejects: its bytes in the query, and why.
type Difference struct {
	// IsRejected says that the target rejects it.
	IsRejected bool
	Place
	Message string
}

// UnmarshalJSON reads a difference as the library writes it.
func (d *Difference) UnmarshalJSON(text []byte) error {
	var status int
	err := json.Unmarshal(text, &[]any{&status, &d.Start, &d.End, &d.Message})
	d.IsRejected = status == C.PROMQL_REFUSED
	return err
}

// UnmarshalJSON reads a token as the library writes it.
func (t *Token) UnmarshalJSON(text []byte) error {
	return readRow(text, &t.Kind, &t.Place)
}

// UnmarshalJSON reads a part as the library writes it.
func (p *Part) UnmarshalJSON(text []byte) error {
	return readRow(text, &p.Kind, &p.Place)
}

// readRow reads a kind and a place, as ["name",0,3].
func readRow(text []byte, kind any, place *Place) error {
	return json.Unmarshal(text, &[]any{kind, &place.Start, &place.End})
}

// Tokens returns the tokens of any text, accepted as a query or not, in their order. White space alone is between them. The error is a
// *QueryError that is ErrTooLarge where the text is longer than a query may be, or one without a place.
func Tokens(text string) ([]Token, error) {
	shown, err := textOf(text, func(text *C.char, length C.size_t, buffer *C.char, size C.size_t, result *C.struct_promql_result) {
		C.promql_tokens(text, length, buffer, size, result)
	})
	if err != nil {
		return nil, err
	}
	var tokens []Token
	err = json.Unmarshal([]byte(shown), &tokens)
	return tokens, err
}

// Differences returns what the target (SetTarget) reads otherwise of a query than these rules do, and then what it rejects of it. Check
// returns an error for the first of them.
func Differences(query string) ([]Difference, error) {
	shown, err := textOf(query, func(query *C.char, length C.size_t, buffer *C.char, size C.size_t, result *C.struct_promql_result) {
		C.promql_differences(query, length, buffer, size, result)
	})
	if err != nil {
		return nil, err
	}
	var differences []Difference
	err = json.Unmarshal([]byte(shown), &differences)
	return differences, err
}

// Parts returns the parts of each node of the query's tree, in the order of Places. Those of one node are in the order in which they end.
func Parts(query string) ([][]Part, error) {
	shown, err := textOf(query, func(query *C.char, length C.size_t, buffer *C.char, size C.size_t, result *C.struct_promql_result) {
		C.promql_parts(query, length, buffer, size, result)
	})
	if err != nil {
		return nil, err
	}
	var parts [][]Part
	err = json.Unmarshal([]byte(shown), &parts)
	return parts, err
}
