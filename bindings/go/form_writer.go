package promql

import (
	"encoding/json"
	"strconv"
	"sync"
	"unicode/utf8"
)

const (
	missing   = "expected an expression"
	belowSelf = "an expression below itself"
)

// isMissing tells whether there is no expression: nil, a nil pointer, or a type that is none of a tree.
func isMissing(expr Expr) bool {
	switch node := expr.(type) {
	case *AggregateExpr:
		return node == nil
	case *BinaryExpr:
		return node == nil
	case *Call:
		return node == nil
	case *MatrixSelector:
		return node == nil
	case *NumberLiteral:
		return node == nil
	case *ParenExpr:
		return node == nil
	case *StringLiteral:
		return node == nil
	case *SubqueryExpr:
		return node == nil
	case *UnaryExpr:
		return node == nil
	case *VectorSelector:
		return node == nil
	}
	return true
}

// formOf returns the JSON form of a tree, as the library would write it. The error is a *NodeError: where an expression is missing or below
// itself, a text is not UTF-8, or a matching has labels of a grouping that it has not.
func formOf(expr Expr) ([]byte, error) {
	writer := formWriter{out: make([]byte, 0, firstSize)}
	return writer.form(expr)
}

// form returns the form of a tree in the writer's buffer.
func (w *formWriter) form(expr Expr) ([]byte, error) {
	w.expr("", expr)
	if w.err != nil {
		return nil, w.err
	}
	return w.out, nil
}

var formWriters = sync.Pool{New: func() any { return new(formWriter) }}

// withForm calls a function with the form of a tree, which is not to be used after it. The error is that of formOf, or else its own.
func withForm(expr Expr, f func(form []byte) (string, error)) (string, error) {
	writer := formWriters.Get().(*formWriter)
	form, err := writer.form(expr)
	text := ""
	if err == nil {
		text, err = f(form)
	}
	if cap(writer.out) <= mostPooled {
		*writer = formWriter{out: writer.out[:0], above: emptied(writer.above)}
		formWriters.Put(writer)
	}
	return text, err
}

// formWriter writes a form, and keeps the first fault. Once there is one, what it writes means nothing. The members of each object come in the
// order of their bytes, without a space.
type formWriter struct {
	out []byte
	err *NodeError
	// The expressions above the one that is written, each in the one before it, and that one; and where there are many, a set of them.
	above []step
	isIn  map[Expr]struct{}
}

// step is an expression, and the member of the one above that it is: the item of this number, if that is a list, or else the number is below 0.
type step struct {
	node   Expr
	member string
	number int
}

// mostCompared is up to how many expressions above another one are compared with it one by one.
const mostCompared = 32

// fail keeps a fault in the expression that is written: in this member of it, if it is not empty.
func (w *formWriter) fail(member, message string, node Expr, cause error) {
	if w.err != nil {
		return
	}
	place := &path{}
	for _, it := range w.above[1:] {
		if it.number < 0 {
			place = place.of(it.member)
		} else {
			place = place.ofItem(it.member, it.number)
		}
	}
	if member != "" {
		place = place.of(member)
	}
	w.err = &NodeError{place.String(), message, node, cause}
}

func (w *formWriter) raw(text string) {
	w.out = append(w.out, text...)
}

// expr writes the expression that is a member.
func (w *formWriter) expr(member string, expr Expr) {
	w.item(member, -1, expr)
}

// item writes an expression that is an item of this number.
func (w *formWriter) item(member string, number int, expr Expr) {
	if w.err != nil {
		return
	}
	isThere := !isMissing(expr)
	isBelowItself := isThere && w.isAbove(expr)
	w.above = append(w.above, step{expr, member, number})
	switch {
	case !isThere:
		w.fail("", missing, nil, ErrMissingExpr)
	case isBelowItself:
		w.fail("", belowSelf, expr, ErrBelowItself)
	default:
		w.members(expr)
		delete(w.isIn, expr)
	}
	w.above = w.above[:len(w.above)-1]
}

// isAbove tells whether an expression is above the place where it is to be written.
func (w *formWriter) isAbove(expr Expr) bool {
	if len(w.above) < mostCompared {
		for _, it := range w.above {
			if it.node == expr {
				return true
			}
		}
		return false
	}
	if w.isIn == nil {
		w.isIn = map[Expr]struct{}{}
	}
	if len(w.above) == mostCompared {
		for _, it := range w.above {
			w.isIn[it.node] = struct{}{}
		}
	}
	_, isAbove := w.isIn[expr]
	w.isIn[expr] = struct{}{}
	return isAbove
}

func (w *formWriter) members(expr Expr) {
	switch node := expr.(type) {
	case *AggregateExpr:
		w.aggregation(node)
	case *BinaryExpr:
		w.binary(node)
	case *Call:
		w.call(node)
	case *MatrixSelector:
		w.selection(&node.Selection)
		w.raw(`,"range":`)
		w.milliseconds(node.Range)
		if node.RangeMode != "" {
			w.text(`,"rangeMode":`, string(node.RangeMode))
		}
		w.startOrEnd(&node.Times)
		w.timestamp(&node.Times)
		w.raw(`,"type":"matrixSelector"}`)
	case *NumberLiteral:
		w.text(`{"type":"numberLiteral","val":`, node.Val)
		w.raw("}")
	case *ParenExpr:
		w.raw(`{"expr":`)
		w.expr("expr", node.Expr)
		w.raw(`,"type":"parenExpr"}`)
	case *StringLiteral:
		w.text(`{"type":"stringLiteral","val":`, node.Val)
		w.raw("}")
	case *SubqueryExpr:
		w.subquery(node)
	case *UnaryExpr:
		w.raw(`{"expr":`)
		w.expr("expr", node.Expr)
		w.raw(`,"op":"-","type":"unaryExpr"}`)
	case *VectorSelector:
		w.selection(&node.Selection)
		w.startOrEnd(&node.Times)
		w.timestamp(&node.Times)
		w.raw(`,"type":"vectorSelector"}`)
	}
}

func (w *formWriter) aggregation(node *AggregateExpr) {
	w.raw(`{"expr":`)
	w.expr("expr", node.Expr)
	w.texts(`,"grouping":`, node.Grouping)
	w.text(`,"op":`, node.Op)
	w.raw(`,"param":`)
	if node.Param == nil {
		w.raw("null")
	} else {
		w.expr("param", node.Param)
	}
	w.raw(`,"type":"aggregation","without":`)
	w.out = strconv.AppendBool(w.out, node.Without)
	w.raw("}")
}

func (w *formWriter) binary(node *BinaryExpr) {
	w.raw(`{"bool":`)
	w.out = strconv.AppendBool(w.out, node.ReturnBool)
	w.raw(`,"lhs":`)
	w.expr("lhs", node.LHS)
	w.raw(`,"matching":`)
	w.matching(node.VectorMatching)
	w.text(`,"op":`, node.Op)
	w.raw(`,"rhs":`)
	w.expr("rhs", node.RHS)
	w.raw(`,"type":"binaryExpr"}`)
}

func (w *formWriter) call(node *Call) {
	w.raw(`{"args":[`)
	for i, arg := range node.Args {
		if i > 0 {
			w.raw(",")
		}
		w.item("args", i, arg)
	}
	w.raw(`],"func":`)
	w.function(node.Func)
	w.raw(`,"type":"call"}`)
}

func (w *formWriter) subquery(node *SubqueryExpr) {
	w.raw(`{"expr":`)
	w.expr("expr", node.Expr)
	w.raw(`,"offset":`)
	w.out = node.Offset.append(w.out)
	w.raw(`,"range":`)
	w.milliseconds(node.Range)
	w.startOrEnd(&node.Times)
	w.raw(`,"step":`)
	if node.Step == nil {
		w.raw("null")
	} else {
		w.milliseconds(*node.Step)
	}
	w.timestamp(&node.Times)
	w.raw(`,"type":"subquery"}`)
}

// text writes a string, which has to be UTF-8.
func (w *formWriter) text(before, text string) {
	w.raw(before)
	if !utf8.ValidString(text) {
		w.fail("", ErrNotUTF8.Error(), w.node(), ErrNotUTF8)
		return
	}
	w.out = appendString(w.out, text)
}

// node is the expression that is written.
func (w *formWriter) node() Expr {
	return w.above[len(w.above)-1].node
}

// textOrNull writes a string, or null for an empty one.
func (w *formWriter) textOrNull(before, text string) {
	if text == "" {
		w.raw(before)
		w.raw("null")
		return
	}
	w.text(before, text)
}

// pointedOrNull writes the string that a pointer leads to, or null for nil.
func (w *formWriter) pointedOrNull(before string, text *string) {
	if text == nil {
		w.raw(before)
		w.raw("null")
		return
	}
	w.text(before, *text)
}

func (w *formWriter) texts(before string, texts []string) {
	w.raw(before)
	w.raw("[")
	for i, text := range texts {
		if i > 0 {
			w.raw(",")
		}
		w.text("", text)
	}
	w.raw("]")
}

func (w *formWriter) milliseconds(length Milliseconds) {
	w.out = strconv.AppendUint(w.out, uint64(length), 10)
}

// selection writes what is before the members `range` and `startOrEnd`.
func (w *formWriter) selection(selection *Selection) {
	w.raw(`{"matchers":`)
	w.matchers(selection.Matchers)
	w.textOrNull(`,"name":`, string(selection.Name))
	w.raw(`,"offset":`)
	w.out = selection.Offset.append(w.out)
	if len(selection.OrMatchers) == 0 {
		return
	}
	before := `,"or_matchers":[`
	for _, group := range selection.OrMatchers {
		w.raw(before)
		w.matchers(group)
		before = ","
	}
	w.raw("]")
}

func (w *formWriter) matchers(matchers []Matcher) {
	w.raw("[")
	for i := range matchers {
		if i > 0 {
			w.raw(",")
		}
		w.text(`{"name":`, matchers[i].Name)
		w.text(`,"type":`, string(matchers[i].Type))
		w.text(`,"value":`, matchers[i].Value)
		w.raw("}")
	}
	w.raw("]")
}

func (w *formWriter) startOrEnd(times *Times) {
	w.textOrNull(`,"startOrEnd":`, string(times.StartOrEnd))
}

func (w *formWriter) timestamp(times *Times) {
	w.raw(`,"timestamp":`)
	if times.Timestamp == nil {
		w.raw("null")
	} else {
		w.out = strconv.AppendInt(w.out, *times.Timestamp, 10)
	}
}

func (w *formWriter) matching(matching *VectorMatching) {
	if matching == nil {
		w.raw("null")
		return
	}
	switch card := matching.Card; card {
	case CardManyToOne, CardOneToMany:
		w.text(`{"card":{`, string(card))
		w.texts(":", matching.Include)
		w.raw("}")
	default:
		if card == "" {
			card = CardOneToOne
		}
		w.text(`{"card":`, string(card))
		w.noInclude(matching)
	}
	w.pointedOrNull(`,"fillValues":{"lhs":`, matching.FillValues.LHS)
	w.pointedOrNull(`,"rhs":`, matching.FillValues.RHS)
	w.texts(`},"include":[],"labels":`, matching.MatchingLabels)
	w.raw(`,"on":`)
	w.out = strconv.AppendBool(w.out, matching.On)
	w.raw("}")
}

// noInclude fails where a matching has labels that its cardinality has no place for.
func (w *formWriter) noInclude(matching *VectorMatching) {
	for _, label := range matching.Include {
		if !utf8.ValidString(label) {
			w.fail("", ErrNotUTF8.Error(), w.node(), ErrNotUTF8)
		}
	}
	if err := matching.checkInclude(); err != nil {
		w.fail("matching", err.Error(), w.node(), ErrNotATree)
	}
}

func (w *formWriter) function(function *Function) {
	switch {
	case function == nil:
		w.raw("null")
	case !function.isUTF8():
		w.fail("", ErrNotUTF8.Error(), w.node(), ErrNotUTF8)
	default:
		w.out = appendFunction(w.out, function)
	}
}

// isUTF8 tells whether all texts of a function are.
func (f *Function) isUTF8() bool {
	isUTF8 := utf8.ValidString(f.Name) && utf8.ValidString(string(f.ReturnType))
	for _, it := range f.ArgTypes {
		isUTF8 = isUTF8 && utf8.ValidString(string(it))
	}
	return isUTF8
}

// appendFunction appends the form of a function.
func appendFunction(out []byte, function *Function) []byte {
	out = append(out, `{"argTypes":[`...)
	for i, it := range function.ArgTypes {
		if i > 0 {
			out = append(out, ',')
		}
		out = appendString(out, string(it))
	}
	out = strconv.AppendBool(append(out, `],"experimental":`...), function.Experimental)
	out = appendString(append(out, `,"name":`...), function.Name)
	out = appendString(append(out, `,"returnType":`...), string(function.ReturnType))
	out = strconv.AppendInt(append(out, `,"variadic":`...), int64(function.Variadic), 10)
	return append(out, '}')
}

// appendString appends a string of JSON.
func appendString(out []byte, text string) []byte {
	out = append(out, '"')
	start := 0
	for i := 0; i < len(text); i++ {
		sign := text[i]
		if sign >= ' ' && sign != '"' && sign != '\\' {
			continue
		}
		out = appendEscape(append(out, text[start:i]...), sign)
		start = i + 1
	}
	return append(append(out, text[start:]...), '"')
}

// appendEscape appends the escape of a byte that no string has as it is.
func appendEscape(out []byte, sign byte) []byte {
	switch sign {
	case '\b':
		sign = 'b'
	case '\f':
		sign = 'f'
	case '\n':
		sign = 'n'
	case '\r':
		sign = 'r'
	case '\t':
		sign = 't'
	}
	if sign >= ' ' {
		return append(out, '\\', sign)
	}
	return append(out, '\\', 'u', '0', '0', "0123456789abcdef"[sign>>4], "0123456789abcdef"[sign&15])
}

// MarshalJSON returns the JSON form of the expression; its error is a *NodeError.
func (e *AggregateExpr) MarshalJSON() ([]byte, error) { return formOf(e) }

// MarshalJSON returns the JSON form of the expression; its error is a *NodeError.
func (e *BinaryExpr) MarshalJSON() ([]byte, error) { return formOf(e) }

// MarshalJSON returns the JSON form of the expression; its error is a *NodeError.
func (e *Call) MarshalJSON() ([]byte, error) { return formOf(e) }

// MarshalJSON returns the JSON form of the expression; its error is a *NodeError.
func (e *MatrixSelector) MarshalJSON() ([]byte, error) { return formOf(e) }

// MarshalJSON returns the JSON form of the expression; its error is a *NodeError.
func (e *NumberLiteral) MarshalJSON() ([]byte, error) { return formOf(e) }

// MarshalJSON returns the JSON form of the expression; its error is a *NodeError.
func (e *ParenExpr) MarshalJSON() ([]byte, error) { return formOf(e) }

// MarshalJSON returns the JSON form of the expression; its error is a *NodeError.
func (e *StringLiteral) MarshalJSON() ([]byte, error) { return formOf(e) }

// MarshalJSON returns the JSON form of the expression; its error is a *NodeError.
func (e *SubqueryExpr) MarshalJSON() ([]byte, error) { return formOf(e) }

// MarshalJSON returns the JSON form of the expression; its error is a *NodeError.
func (e *UnaryExpr) MarshalJSON() ([]byte, error) { return formOf(e) }

// MarshalJSON returns the JSON form of the expression; its error is a *NodeError.
func (e *VectorSelector) MarshalJSON() ([]byte, error) { return formOf(e) }

var _ json.Marshaler = (*Call)(nil)
