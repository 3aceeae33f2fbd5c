package promql

import (
	"math"
	"strconv"
	"strings"
	"sync"
)

// maxQueryHeight is how many nodes of a query are above one another at most.
const maxQueryHeight = 512

const otherwise = "written otherwise"

// readWrittenForm returns the tree of a form that is as the library writes it: without a space, the members of each object in the order of
// their bytes. So what a node is shows in its first members, and each is made as soon as it was read. A text that is another one, or
// higher than a query, has no tree here; FromJSON then reads it otherwise, and tells what is wrong.
func readWrittenForm(text string) (Expr, bool) {
	reader := writtenReaders.Get().(*writtenReader)
	defer writtenReaders.Put(reader)
	reader.jsonReader, reader.height = jsonReader{text: text}, 0
	expr := reader.expr()
	isWritten := reader.fault == "" && reader.at == len(text)
	reader.jsonReader = jsonReader{}
	reader.exprs, reader.matchers, reader.labels = emptied(reader.exprs), emptied(reader.matchers), emptied(reader.labels)
	return expr, isWritten
}

var writtenReaders = sync.Pool{New: func() any { return new(writtenReader) }}

// mostScratch is how many items have room in the lists of a reader that is not at work.
const mostScratch = 32

// emptied returns an empty list that refers to nothing, in the room of a list which is not large.
func emptied[T any](list []T) []T {
	if cap(list) > mostScratch {
		return nil
	}
	var nothing T
	list = list[:cap(list)]
	for i := range list {
		list[i] = nothing
	}
	return list[:0]
}

// writtenReader reads a text from a place on. Once there is a fault, what it reads means nothing, and no more is read. Items of lists are
// collected before their list is made, so that it has the right length: those of lists within one another after one another.
type writtenReader struct {
	jsonReader
	height   int
	exprs    []Expr
	matchers []Matcher
	labels   []string
}

// must takes a text that is next.
func (r *writtenReader) must(text string) {
	if !r.eat(text) {
		r.fail(otherwise)
	}
}

// expr reads an expression. It is a *StringLiteral where there is a fault.
func (r *writtenReader) expr() Expr {
	if r.height == maxQueryHeight {
		r.fail(otherwise)
		return &StringLiteral{}
	}
	r.height++
	defer func() { r.height-- }()
	switch {
	case r.eat(`{"matchers":[`):
		return r.selector()
	case r.eat(`{"expr":`):
		return r.overExpr()
	case r.eat(`{"bool":`):
		return r.binary()
	case r.eat(`{"args":[`):
		return r.call()
	case r.eat(`{"type":"numberLiteral","val":`):
		return &NumberLiteral{Val: r.textAnd("}")}
	case r.eat(`{"type":"stringLiteral","val":`):
		return &StringLiteral{Val: r.textAnd("}")}
	}
	r.fail(otherwise)
	return &StringLiteral{}
}

// selector reads what is after `{"matchers":[`.
func (r *writtenReader) selector() Expr {
	selection := Selection{Matchers: r.matcherList()}
	r.must(`,"name":`)
	selection.Name = Name(r.textOrEmpty())
	r.must(`,"offset":`)
	selection.Offset = r.offset()
	if r.eat(`,"or_matchers":[`) {
		selection.OrMatchers = r.groups()
	}
	if !r.eat(`,"range":`) {
		r.startOrEnd(&selection.Times)
		r.timestamp(&selection.Times)
		r.must(`,"type":"vectorSelector"}`)
		return &VectorSelector{Selection: selection}
	}
	found := &MatrixSelector{Range: Milliseconds(r.whole())}
	switch {
	case r.eat(`,"rangeMode":"smoothed"`):
		found.RangeMode = RangeSmoothed
	case r.eat(`,"rangeMode":"anchored"`):
		found.RangeMode = RangeAnchored
	}
	r.startOrEnd(&selection.Times)
	r.timestamp(&selection.Times)
	r.must(`,"type":"matrixSelector"}`)
	found.Selection = selection
	return found
}

// overExpr reads what is after `{"expr":`.
func (r *writtenReader) overExpr() Expr {
	expr := r.expr()
	switch {
	case r.eat(`,"grouping":[`):
		return r.aggregation(expr)
	case r.eat(`,"offset":`):
		return r.subquery(expr)
	case r.eat(`,"op":"-","type":"unaryExpr"}`):
		return &UnaryExpr{Expr: expr}
	}
	r.must(`,"type":"parenExpr"}`)
	return &ParenExpr{Expr: expr}
}

// aggregation reads what is after `"grouping":[`.
func (r *writtenReader) aggregation(expr Expr) Expr {
	found := &AggregateExpr{Expr: expr, Grouping: r.labelList()}
	r.must(`,"op":`)
	found.Op = r.textAnd(`,"param":`)
	if !r.eat("null") {
		found.Param = r.expr()
	}
	r.must(`,"type":"aggregation","without":`)
	found.Without = r.flag()
	r.must("}")
	return found
}

// subquery reads what is after `"offset":`.
func (r *writtenReader) subquery(expr Expr) Expr {
	found := &SubqueryExpr{Expr: expr}
	found.Offset = r.offset()
	r.must(`,"range":`)
	found.Range = Milliseconds(r.whole())
	r.startOrEnd(&found.Times)
	r.must(`,"step":`)
	if !r.eat("null") {
		step := Milliseconds(r.whole())
		found.Step = &step
	}
	r.timestamp(&found.Times)
	r.must(`,"type":"subquery"}`)
	return found
}

// binary reads what is after `{"bool":`.
func (r *writtenReader) binary() Expr {
	found := &BinaryExpr{ReturnBool: r.flag()}
	r.must(`,"lhs":`)
	found.LHS = r.expr()
	r.must(`,"matching":`)
	if !r.eat("null") {
		found.VectorMatching = r.matching()
	}
	r.must(`,"op":`)
	found.Op = r.textAnd(`,"rhs":`)
	found.RHS = r.expr()
	r.must(`,"type":"binaryExpr"}`)
	return found
}

func (r *writtenReader) matching() *VectorMatching {
	found := &VectorMatching{}
	switch {
	case r.eat(`{"card":"one-to-one"`):
		found.Card = CardOneToOne
	case r.eat(`{"card":"many-to-many"`):
		found.Card = CardManyToMany
	case r.eat(`{"card":{"many-to-one":[`):
		found.Card, found.Include = CardManyToOne, r.labelList()
		r.must("}")
	case r.eat(`{"card":{"one-to-many":[`):
		found.Card, found.Include = CardOneToMany, r.labelList()
		r.must("}")
	}
	r.must(`,"fillValues":{"lhs":`)
	found.FillValues.LHS = r.textOrNil()
	r.must(`,"rhs":`)
	found.FillValues.RHS = r.textOrNil()
	r.must(`},"include":[],"labels":[`)
	found.MatchingLabels = r.labelList()
	r.must(`,"on":`)
	found.On = r.flag()
	r.must("}")
	return found
}

// call reads what is after `{"args":[`.
func (r *writtenReader) call() Expr {
	found := &Call{Args: r.args()}
	r.must(`,"func":`)
	found.Func = r.function()
	r.must(`,"type":"call"}`)
	return found
}

// function reads a function, which has to be one of the table.
func (r *writtenReader) function() *Function {
	end := strings.IndexByte(r.text[r.at:], '}') + 1
	number, isFunction := functionsByForm()[r.text[r.at:r.at+end]]
	if !isFunction {
		r.fail(otherwise)
		return nil
	}
	r.at += end
	found := functionTable[number]
	return &found
}

var (
	formsOnce       sync.Once
	functionNumbers map[string]int
)

// functionsByForm has the number of each function in the table, by its form.
func functionsByForm() map[string]int {
	formsOnce.Do(func() {
		functionNumbers = make(map[string]int, len(functionTable))
		for i := range functionTable {
			functionNumbers[string(appendFunction(nil, &functionTable[i]))] = i
		}
	})
	return functionNumbers
}

// ---- lists, after their brackets

func (r *writtenReader) args() Expressions {
	first := len(r.exprs)
	for more := !r.eat("]"); more && r.fault == ""; more = r.hasMore() {
		expr := r.expr()
		r.exprs = append(r.exprs, expr)
	}
	found := append(Expressions(nil), r.exprs[first:]...)
	r.exprs = r.exprs[:first]
	return found
}

// hasMore tells whether there is another item after this one; it takes the comma, or the bracket.
func (r *writtenReader) hasMore() bool {
	if r.eat(",") {
		return true
	}
	r.must("]")
	return false
}

func (r *writtenReader) labelList() Labels {
	r.labels = r.labels[:0]
	for more := !r.eat("]"); more && r.fault == ""; more = r.hasMore() {
		r.labels = append(r.labels, r.textAnd(""))
	}
	return append(Labels(nil), r.labels...)
}

func (r *writtenReader) matcherList() Matchers {
	r.matchers = r.matchers[:0]
	for more := !r.eat("]"); more && r.fault == ""; more = r.hasMore() {
		r.must(`{"name":`)
		matcher := Matcher{Name: r.textAnd(`,"type":`)}
		matcher.Type = r.matchType()
		r.must(`,"value":`)
		matcher.Value = r.textAnd("}")
		r.matchers = append(r.matchers, matcher)
	}
	return append(Matchers(nil), r.matchers...)
}

// groups reads one group at least.
func (r *writtenReader) groups() []Matchers {
	var found []Matchers
	for more := true; more && r.fault == ""; more = r.hasMore() {
		r.must("[")
		found = append(found, r.matcherList())
	}
	return found
}

func (r *writtenReader) matchType() MatchType {
	switch {
	case r.eat(`"="`):
		return MatchEqual
	case r.eat(`"=~"`):
		return MatchRegexp
	case r.eat(`"!="`):
		return MatchNotEqual
	}
	r.must(`"!~"`)
	return MatchNotRegexp
}

// ---- texts and numbers

// textAnd reads a string, and what has to be after it.
func (r *writtenReader) textAnd(after string) string {
	r.must(`"`)
	if r.fault != "" {
		return ""
	}
	found := r.string()
	r.must(after)
	return found
}

// textOrEmpty reads a string, or null, which is an empty one. A string that is empty is read otherwise.
func (r *writtenReader) textOrEmpty() string {
	if r.eat("null") {
		return ""
	}
	return r.textAnd("")
}

func (r *writtenReader) textOrNil() *string {
	if r.eat("null") {
		return nil
	}
	found := r.textAnd("")
	return &found
}

func (r *writtenReader) flag() bool {
	if r.eat("true") {
		return true
	}
	r.must("false")
	return false
}

// whole reads a whole number from 0 to 2^64 - 1.
func (r *writtenReader) whole() uint64 {
	start, value := r.at, uint64(0)
	for ; r.at < len(r.text) && '0' <= r.text[r.at] && r.text[r.at] <= '9'; r.at++ {
		digit := uint64(r.text[r.at] - '0')
		if value > (math.MaxUint64-digit)/10 {
			r.fail(otherwise)
			return 0
		}
		value = 10*value + digit
	}
	if r.at == start || r.at-start > 1 && r.text[start] == '0' {
		r.fail(otherwise)
	}
	return value
}

func (r *writtenReader) offset() Offset {
	isNegative := r.eat("-")
	value := r.whole()
	if isNegative && (value == 0 || value > 1<<63) {
		r.fail(otherwise)
	}
	return Offset{Milliseconds(value), isNegative}
}

func (r *writtenReader) startOrEnd(times *Times) {
	switch {
	case r.eat(`,"startOrEnd":null`):
	case r.eat(`,"startOrEnd":"start"`):
		times.StartOrEnd = Start
	default:
		r.must(`,"startOrEnd":"end"`)
		times.StartOrEnd = End
	}
}

func (r *writtenReader) timestamp(times *Times) {
	r.must(`,"timestamp":`)
	if r.eat("null") {
		return
	}
	start := r.at
	for r.at < len(r.text) && (r.text[r.at] == '-' || '0' <= r.text[r.at] && r.text[r.at] <= '9') {
		r.at++
	}
	text := r.text[start:r.at]
	value, err := strconv.ParseInt(text, 10, 64)
	if err != nil || strconv.FormatInt(value, 10) != text || times.StartOrEnd != "" {
		r.fail(otherwise)
	}
	times.Timestamp = &value
}
