package promql

import (
	"encoding/json"
	"errors"
	"fmt"
	"math"
	"strconv"
	"strings"
	"time"
)

// Expr is an expression of a query: *AggregateExpr, *BinaryExpr, *Call, *MatrixSelector, *NumberLiteral, *ParenExpr, *StringLiteral,
// *SubqueryExpr, *UnaryExpr or *VectorSelector, and no other type. The names are those of Prometheus's parser.
//
// Parse reads one, Print gives its text, and json.Marshal its JSON form (docs/reference/json.md of the repository), which has all that a
// tree has; FromJSON is the way back. Times and lengths of time are whole milliseconds.
type Expr interface {
	// String returns what Print returns, or its error within %!(..).
	fmt.Stringer
	// Children returns the expressions right below: the parameter of an aggregation comes before what is aggregated.
	Children() []Expr
	// setChildren puts others in their places, of which there are as many.
	setChildren(children []Expr)
}

// AggregateExpr is an aggregation: Op is sum, topk and so on. Grouping has the labels after by, or after without where Without is true.
// Param is what operators such as topk have before the expression, and else nil.
type AggregateExpr struct {
	Type     typeAggregation `json:"type"`
	Op       string          `json:"op"`
	Expr     Expr            `json:"expr"`
	Param    Expr            `json:"param"`
	Grouping Labels          `json:"grouping"`
	Without  bool            `json:"without"`
}

// BinaryExpr is a binary expression: Op is +, ==, and and so on, and ReturnBool says whether the word bool is there.
type BinaryExpr struct {
	Type           typeBinary      `json:"type"`
	Op             string          `json:"op"`
	LHS            Expr            `json:"lhs"`
	RHS            Expr            `json:"rhs"`
	VectorMatching *VectorMatching `json:"matching"`
	ReturnBool     bool            `json:"bool"`
}

// Call is a call of a function: NewCall makes one.
type Call struct {
	Type typeCall    `json:"type"`
	Func *Function   `json:"func"`
	Args Expressions `json:"args"`
}

// MatrixSelector is a selector with a range, as in foo[5m].
type MatrixSelector struct {
	Type typeMatrixSelector `json:"type"`
	Selection
	Range     Milliseconds `json:"range"`
	RangeMode RangeMode    `json:"rangeMode,omitempty"`
}

// NumberLiteral is a number. It has at most 38 digits, and they are exact, so Val is a text, as it prints: 0.5, -Inf, NaN.
type NumberLiteral struct {
	Type typeNumber `json:"type"`
	Val  string     `json:"val"`
}

// ParenExpr is an expression in parentheses.
type ParenExpr struct {
	Type typeParen `json:"type"`
	Expr Expr      `json:"expr"`
}

// StringLiteral is a string: Val is its text without the quotes.
type StringLiteral struct {
	Type typeString `json:"type"`
	Val  string     `json:"val"`
}

// SubqueryExpr is a subquery. Step is nil where the query says none.
type SubqueryExpr struct {
	Type  typeSubquery  `json:"type"`
	Expr  Expr          `json:"expr"`
	Range Milliseconds  `json:"range"`
	Step  *Milliseconds `json:"step"`
	Times
}

// UnaryExpr is a minus before an expression.
type UnaryExpr struct {
	Type typeUnary `json:"type"`
	Op   minus     `json:"op"`
	Expr Expr      `json:"expr"`
}

// VectorSelector is a selector.
type VectorSelector struct {
	Type typeVectorSelector `json:"type"`
	Selection
}

// Selection is which series a selector selects, and when. Name is the one before the braces, or empty. OrMatchers are the groups between
// or, and Matchers those that are in none.
type Selection struct {
	Name       Name       `json:"name"`
	Matchers   Matchers   `json:"matchers"`
	OrMatchers []Matchers `json:"or_matchers,omitempty"`
	Times
}

// AddMatcher adds a matcher: to each group, where there are groups. It does nothing with no selection.
func (s *Selection) AddMatcher(matcher Matcher) {
	if s == nil {
		return
	}
	if len(s.OrMatchers) == 0 {
		s.Matchers = append(s.Matchers, matcher)
	}
	for i := range s.OrMatchers {
		s.OrMatchers[i] = append(s.OrMatchers[i], matcher)
	}
}

// SelectionOf returns the selection of a *VectorSelector or a *MatrixSelector, which is changed in place, and nil for any other expression.
func SelectionOf(expr Expr) *Selection {
	if isMissing(expr) {
		return nil
	}
	switch node := expr.(type) {
	case *VectorSelector:
		return &node.Selection
	case *MatrixSelector:
		return &node.Selection
	}
	return nil
}

// Times are the offset of an expression and the time after its @: Timestamp, in milliseconds since the epoch, or StartOrEnd.
type Times struct {
	Offset     Offset     `json:"offset"`
	StartOrEnd StartOrEnd `json:"startOrEnd"`
	Timestamp  *int64     `json:"timestamp"`
}

// Matcher is a matcher of a label. Its value is a pattern with MatchRegexp and MatchNotRegexp.
type Matcher struct {
	Name  string    `json:"name"`
	Type  MatchType `json:"type"`
	Value string    `json:"value"`
}

// MatchType is the operator of a matcher.
type MatchType string

// The operators of matchers.
const (
	MatchEqual     MatchType = "="
	MatchNotEqual  MatchType = "!="
	MatchRegexp    MatchType = "=~"
	MatchNotRegexp MatchType = "!~"
)

// VectorMatching is how the sides of a binary expression match: by the labels after on, or by all but those after ignoring. Include has
// the labels after group_left or group_right, where Card is CardManyToOne or CardOneToMany.
type VectorMatching struct {
	Card           Cardinality
	On             bool
	MatchingLabels Labels
	Include        Labels
	FillValues     FillValues
}

// FillValues are the numbers after fill_left and fill_right, as they print, or nil.
type FillValues struct {
	LHS *string `json:"lhs"`
	RHS *string `json:"rhs"`
}

// Cardinality is how many elements of one side match how many of the other.
type Cardinality string

// The cardinalities. Only and, or and unless match many to many. Empty is CardOneToOne.
const (
	CardOneToOne   Cardinality = "one-to-one"
	CardManyToOne  Cardinality = "many-to-one"
	CardOneToMany  Cardinality = "one-to-many"
	CardManyToMany Cardinality = "many-to-many"
)

// RangeMode is how samples at the ends of a range are taken; empty is the plain mode.
type RangeMode string

// The modes of ranges that have a word.
const (
	RangeSmoothed RangeMode = "smoothed"
	RangeAnchored RangeMode = "anchored"
)

// StartOrEnd is the word after @, or empty.
type StartOrEnd string

// The words after @.
const (
	Start StartOrEnd = "start"
	End   StartOrEnd = "end"
)

// Name is the name before the braces of a selector, or empty where there is none.
type Name string

// Milliseconds is a length of time. MillisecondsOf makes one of a duration.
type Milliseconds uint64

// ErrDuration says that a duration is no length of time of a tree: it has a part of a millisecond, or is below 0 where that may not be.
var ErrDuration = errors.New("no length of time of a tree")

// MillisecondsOf returns a duration in milliseconds. The error is ErrDuration where it is no whole number of them, or below 0.
func MillisecondsOf(duration time.Duration) (Milliseconds, error) {
	if duration < 0 {
		return 0, explained{"a duration below 0: " + duration.String(), ErrDuration}
	}
	offset, err := OffsetOf(duration)
	return offset.Milliseconds, err
}

// Offset is a length of time that is negative for an offset into the future. OffsetOf makes one of a duration.
type Offset struct {
	Milliseconds Milliseconds
	Negative     bool
}

// OffsetOf returns a duration as an offset. The error is ErrDuration where it is no whole number of milliseconds.
func OffsetOf(duration time.Duration) (Offset, error) {
	milliseconds := duration / time.Millisecond
	switch {
	case duration%time.Millisecond != 0:
		return Offset{}, explained{"a duration with a part of a millisecond: " + duration.String(), ErrDuration}
	case milliseconds < 0:
		return Offset{Milliseconds(-milliseconds), true}, nil
	default:
		return Offset{Milliseconds(milliseconds), false}, nil
	}
}

// ValueType is the type of an expression's value.
type ValueType string

// The types of values.
const (
	ValueTypeVector ValueType = "vector"
	ValueTypeScalar ValueType = "scalar"
	ValueTypeMatrix ValueType = "matrix"
	ValueTypeString ValueType = "string"
)

// Function is a function of the language. Variadic says how many arguments may be given.
type Function struct {
	Name         string      `json:"name"`
	ArgTypes     []ValueType `json:"argTypes"`
	Variadic     int         `json:"variadic"`
	ReturnType   ValueType   `json:"returnType"`
	Experimental bool        `json:"experimental"`
}

// GetFunction returns the function of this name, and whether there is one.
func GetFunction(name string) (*Function, bool) {
	for i := range functionTable {
		if functionTable[i].Name == name {
			found := functionTable[i]
			return &found, true
		}
	}
	return nil, false
}

// NewCall returns a call of the function of this name. One of another name is not printed: the error of Print says so.
func NewCall(name string, args ...Expr) *Call {
	function, found := GetFunction(name)
	if !found {
		function = &Function{Name: name}
	}
	return &Call{Func: function, Args: args}
}

// NewNumber returns the number with this value: the one that %v shows.
func NewNumber(value float64) *NumberLiteral {
	switch {
	case math.IsInf(value, 1):
		return &NumberLiteral{Val: "Inf"}
	case value == 0:
		return &NumberLiteral{Val: "0"}
	}
	return &NumberLiteral{Val: strconv.FormatFloat(value, 'f', -1, 64)}
}

// Float returns the value of the number, rounded where it has more digits, and not a number where it is none.
func (e *NumberLiteral) Float() float64 {
	if e == nil {
		return math.NaN()
	}
	value, err := strconv.ParseFloat(e.Val, 64)
	if err != nil && math.Abs(value) <= math.MaxFloat64 {
		return math.NaN()
	}
	return value
}

// ---- children

func (e *AggregateExpr) Children() []Expr {
	if e == nil {
		return nil
	}
	if e.Param != nil {
		return []Expr{e.Param, e.Expr}
	}
	return []Expr{e.Expr}
}

func (e *BinaryExpr) Children() []Expr {
	if e == nil {
		return nil
	}
	return []Expr{e.LHS, e.RHS}
}

func (e *Call) Children() []Expr {
	if e == nil {
		return nil
	}
	return append([]Expr(nil), e.Args...)
}

func (e *ParenExpr) Children() []Expr {
	if e == nil {
		return nil
	}
	return []Expr{e.Expr}
}

func (e *SubqueryExpr) Children() []Expr {
	if e == nil {
		return nil
	}
	return []Expr{e.Expr}
}

func (e *UnaryExpr) Children() []Expr {
	if e == nil {
		return nil
	}
	return []Expr{e.Expr}
}

func (e *MatrixSelector) Children() []Expr { return nil }
func (e *NumberLiteral) Children() []Expr  { return nil }
func (e *StringLiteral) Children() []Expr  { return nil }
func (e *VectorSelector) Children() []Expr { return nil }

func (e *AggregateExpr) setChildren(children []Expr) {
	if e.Param != nil {
		e.Param = children[0]
	}
	e.Expr = children[len(children)-1]
}

func (e *BinaryExpr) setChildren(children []Expr)   { e.LHS, e.RHS = children[0], children[1] }
func (e *Call) setChildren(children []Expr)         { e.Args = append(Expressions(nil), children...) }
func (e *MatrixSelector) setChildren([]Expr)        {}
func (e *NumberLiteral) setChildren([]Expr)         {}
func (e *ParenExpr) setChildren(children []Expr)    { e.Expr = children[0] }
func (e *StringLiteral) setChildren([]Expr)         {}
func (e *SubqueryExpr) setChildren(children []Expr) { e.Expr = children[0] }
func (e *UnaryExpr) setChildren(children []Expr)    { e.Expr = children[0] }
func (e *VectorSelector) setChildren([]Expr)        {}

// ---- texts

func (e *AggregateExpr) String() string  { return lineOrError(e) }
func (e *BinaryExpr) String() string     { return lineOrError(e) }
func (e *Call) String() string           { return lineOrError(e) }
func (e *MatrixSelector) String() string { return lineOrError(e) }
func (e *NumberLiteral) String() string  { return lineOrError(e) }
func (e *ParenExpr) String() string      { return lineOrError(e) }
func (e *StringLiteral) String() string  { return lineOrError(e) }
func (e *SubqueryExpr) String() string   { return lineOrError(e) }
func (e *UnaryExpr) String() string      { return lineOrError(e) }
func (e *VectorSelector) String() string { return lineOrError(e) }

func lineOrError(expr Expr) string {
	return textBetween("", expr, "")
}

// ---- what has a JSON form of its own

// Labels are labels; as JSON a list, which is empty for nil.
type Labels []string

// Matchers are matchers; as JSON a list, which is empty for nil.
type Matchers []Matcher

// Expressions are expressions; as JSON a list, which is empty for nil.
type Expressions []Expr

// The type of a node in its JSON form, which is the same for all nodes of a Go type.
type (
	typeAggregation    struct{}
	typeBinary         struct{}
	typeCall           struct{}
	typeMatrixSelector struct{}
	typeNumber         struct{}
	typeParen          struct{}
	typeString         struct{}
	typeSubquery       struct{}
	typeUnary          struct{}
	typeVectorSelector struct{}
	minus              struct{}
)

func (typeAggregation) MarshalText() ([]byte, error)    { return []byte("aggregation"), nil }
func (typeBinary) MarshalText() ([]byte, error)         { return []byte("binaryExpr"), nil }
func (typeCall) MarshalText() ([]byte, error)           { return []byte("call"), nil }
func (typeMatrixSelector) MarshalText() ([]byte, error) { return []byte("matrixSelector"), nil }
func (typeNumber) MarshalText() ([]byte, error)         { return []byte("numberLiteral"), nil }
func (typeParen) MarshalText() ([]byte, error)          { return []byte("parenExpr"), nil }
func (typeString) MarshalText() ([]byte, error)         { return []byte("stringLiteral"), nil }
func (typeSubquery) MarshalText() ([]byte, error)       { return []byte("subquery"), nil }
func (typeUnary) MarshalText() ([]byte, error)          { return []byte("unaryExpr"), nil }
func (typeVectorSelector) MarshalText() ([]byte, error) { return []byte("vectorSelector"), nil }
func (minus) MarshalText() ([]byte, error)              { return []byte("-"), nil }

// MarshalJSON returns a list of the labels.
func (l Labels) MarshalJSON() ([]byte, error) {
	return json.Marshal(append([]string{}, l...))
}

// MarshalJSON returns a list of the matchers.
func (m Matchers) MarshalJSON() ([]byte, error) {
	return json.Marshal(append([]Matcher{}, m...))
}

// MarshalJSON returns a list of the expressions.
func (e Expressions) MarshalJSON() ([]byte, error) {
	return json.Marshal(append([]Expr{}, e...))
}

// MarshalJSON returns a text, or null where it is empty.
func (s StartOrEnd) MarshalJSON() ([]byte, error) {
	return marshalText(string(s))
}

// MarshalJSON returns a text, or null where it is empty.
func (n Name) MarshalJSON() ([]byte, error) {
	return marshalText(string(n))
}

func marshalText(text string) ([]byte, error) {
	if text == "" {
		return []byte("null"), nil
	}
	return json.Marshal(text)
}

// MarshalJSON returns a whole number of milliseconds.
func (o Offset) MarshalJSON() ([]byte, error) {
	return o.append(nil), nil
}

// append appends the number of milliseconds.
func (o Offset) append(out []byte) []byte {
	if o.Negative && o.Milliseconds > 0 {
		out = append(out, '-')
	}
	return strconv.AppendUint(out, uint64(o.Milliseconds), 10)
}

// MarshalJSON returns the matching's JSON form. Its error is ErrNotATree: Include has labels that Card has no place for.
func (m *VectorMatching) MarshalJSON() ([]byte, error) {
	var card any = m.Card
	switch m.Card {
	case CardManyToOne, CardOneToMany:
		card = map[Cardinality]Labels{m.Card: m.Include}
	default:
		if m.Card == "" {
			card = CardOneToOne
		}
		if err := m.checkInclude(); err != nil {
			return nil, err
		}
	}
	return json.Marshal(struct {
		Card       any        `json:"card"`
		FillValues FillValues `json:"fillValues"`
		Include    Labels     `json:"include"`
		Labels     Labels     `json:"labels"`
		On         bool       `json:"on"`
	}{card, m.FillValues, nil, m.MatchingLabels, m.On})
}

// checkInclude returns ErrNotATree where there are labels of a grouping, for a cardinality that has no place for them.
func (m *VectorMatching) checkInclude() error {
	if len(m.Include) == 0 {
		return nil
	}
	return explained{"labels of a grouping without group_left or group_right: " + strings.Join(m.Include, ", "), ErrNotATree}
}
