package promql

import (
	"encoding/json"
	"sort"
	"strconv"
	"strings"
)

// FormError says that a text is no JSON form of a query. Path is that of the first part at fault, as $.lhs.args[0].range.
type FormError struct {
	Path    string
	Message string
}

func (e *FormError) Error() string {
	return e.Path + ": " + e.Message
}

// Unwrap returns ErrTooDeep where the text is nested too deeply, ErrNotUTF8 where it is not UTF-8, and else ErrNotATree.
func (e *FormError) Unwrap() error {
	switch e.Message {
	case tooDeep:
		return ErrTooDeep
	case notUTF8:
		return ErrNotUTF8
	}
	return ErrNotATree
}

// Parse returns the tree of a query. Lengths of time are cut off to whole milliseconds, as in the JSON form. The errors are those of JSON:
// a query that is rejected gives a *QueryError.
func Parse(query string) (Expr, error) {
	form, err := jsonText(query)
	if err != nil {
		return nil, err
	}
	return fromText(form)
}

// FromJSON returns the tree of a JSON form, as JSON and json.Marshal give it, and a *FormError where it is none. At most 10,000 arrays and
// objects within one another are read, and no text that is not valid UTF-8. Types of expressions, names and patterns are not looked at:
// Print tells where they are wrong.
func FromJSON(form []byte) (Expr, error) {
	return fromText(string(form))
}

// fromText does so for a text, of which the texts of the tree are parts.
func fromText(form string) (Expr, error) {
	if expr, isWritten := readWrittenForm(form); isWritten {
		return expr, nil
	}
	return readAnyForm(form)
}

// readAnyForm does so with members in any order, and with spaces.
func readAnyForm(form string) (Expr, error) {
	value, fault := readJSON(form)
	if fault != nil {
		return nil, fault
	}
	reader := formReader{}
	expr := reader.expr(&path{}, value)
	if reader.err != nil {
		return nil, reader.err
	}
	return expr, nil
}

// formReader reads values of JSON, and keeps the first fault. Once there is one, what it reads means nothing.
type formReader struct {
	err *FormError
}

func (r *formReader) fail(place *path, message string) {
	if r.err == nil {
		r.err = &FormError{place.String(), message}
	}
}

// expr reads an expression. It is no expression of its type, but some, where there is a fault.
func (r *formReader) expr(place *path, value any) Expr {
	o := r.object(place, value)
	var expr Expr
	switch kind := o.text("type"); kind {
	case "aggregation":
		expr = &AggregateExpr{
			Op: o.text("op"), Expr: o.expr("expr"), Param: o.exprOrNil("param"), Grouping: o.texts("grouping"), Without: o.flag("without"),
		}
	case "binaryExpr":
		expr = &BinaryExpr{
			Op: o.text("op"), LHS: o.expr("lhs"), RHS: o.expr("rhs"), VectorMatching: o.matching("matching"), ReturnBool: o.flag("bool"),
		}
	case "call":
		expr = &Call{Func: o.function("func"), Args: o.exprs("args")}
	case "matrixSelector":
		expr = &MatrixSelector{Selection: o.selection(), Range: o.milliseconds("range"), RangeMode: o.rangeMode()}
	case "numberLiteral":
		expr = &NumberLiteral{Val: o.text("val")}
	case "parenExpr":
		expr = &ParenExpr{Expr: o.expr("expr")}
	case "stringLiteral":
		expr = &StringLiteral{Val: o.text("val")}
	case "subquery":
		expr = &SubqueryExpr{Expr: o.expr("expr"), Range: o.milliseconds("range"), Step: o.millisecondsOrNil("step"), Times: o.times()}
	case "unaryExpr":
		o.word("op", "-")
		expr = &UnaryExpr{Expr: o.expr("expr")}
	case "vectorSelector":
		expr = &VectorSelector{Selection: o.selection()}
	default:
		r.fail(place.of("type"), "expected the type of an expression")
	}
	o.end()
	return expr
}

// object is an object of a form. A member that is read is taken out of it.
type object struct {
	reader *formReader
	path   *path
	values map[string]any
}

func (r *formReader) object(place *path, value any) object {
	values, ok := value.(map[string]any)
	if !ok {
		r.fail(place, "expected an object")
	}
	return object{r, place, values}
}

// end tells of a member that was not read: of the first one in byte order.
func (o object) end() {
	names := make([]string, 0, len(o.values))
	for name := range o.values {
		names = append(names, name)
	}
	sort.Strings(names)
	if len(names) > 0 {
		o.fail(names[0], "unknown member")
	}
}

func (o object) fail(name, message string) {
	o.reader.fail(o.path.of(name), message)
}

// failItem tells what is wrong in an item of a list.
func (o object) failItem(name string, number int, message string) {
	o.reader.fail(o.path.ofItem(name, number), message)
}

func (o object) has(name string) bool {
	_, found := o.values[name]
	return found
}

func (o object) take(name string) any {
	value, found := o.values[name]
	if !found {
		o.fail(name, "expected such a member")
	}
	delete(o.values, name)
	return value
}

func (o object) text(name string) string {
	text, ok := o.take(name).(string)
	if !ok {
		o.fail(name, "expected a string")
	}
	return text
}

func (o object) textOrNil(name string) *string {
	value := o.take(name)
	if value == nil {
		return nil
	}
	text, ok := value.(string)
	if !ok {
		o.fail(name, "expected a string or null")
	}
	return &text
}

// word reads one of these words.
func (o object) word(name string, words ...string) string {
	text, _ := o.take(name).(string)
	for _, word := range words {
		if word == text {
			return text
		}
	}
	o.fail(name, "expected one of "+strings.Join(words, ", "))
	return ""
}

func (o object) flag(name string) bool {
	flag, ok := o.take(name).(bool)
	if !ok {
		o.fail(name, "expected true or false")
	}
	return flag
}

func (o object) list(name string) []any {
	items, ok := o.take(name).([]any)
	if !ok {
		o.fail(name, "expected a list")
	}
	return items
}

func (o object) texts(name string) []string {
	var texts []string
	for i, item := range o.list(name) {
		text, ok := item.(string)
		if !ok {
			o.failItem(name, i, "expected a string")
			return nil
		}
		texts = append(texts, text)
	}
	return texts
}

func (o object) expr(name string) Expr {
	return o.reader.expr(o.path.of(name), o.take(name))
}

func (o object) exprOrNil(name string) Expr {
	if value, found := o.values[name]; found && value == nil {
		delete(o.values, name)
		return nil
	}
	return o.expr(name)
}

func (o object) exprs(name string) []Expr {
	var exprs []Expr
	for i, item := range o.list(name) {
		if o.reader.err != nil {
			return nil
		}
		exprs = append(exprs, o.reader.expr(o.path.ofItem(name, i), item))
	}
	return exprs
}

func (o object) milliseconds(name string) Milliseconds {
	number, _ := o.take(name).(json.Number)
	value, err := strconv.ParseUint(number.String(), 10, 64)
	if err != nil {
		o.fail(name, "expected a whole number from 0 to 2^64 - 1")
	}
	return Milliseconds(value)
}

func (o object) millisecondsOrNil(name string) *Milliseconds {
	if value, found := o.values[name]; found && value == nil {
		delete(o.values, name)
		return nil
	}
	value := o.milliseconds(name)
	return &value
}

func (o object) offset(name string) Offset {
	number, _ := o.take(name).(json.Number)
	text := strings.TrimPrefix(number.String(), "-")
	value, err := strconv.ParseUint(text, 10, 64)
	isNegative := value > 0 && text != number.String()
	if err != nil || isNegative && value > 1<<63 {
		o.fail(name, "expected a whole number from -2^63 to 2^64 - 1")
	}
	return Offset{Milliseconds(value), isNegative}
}

func (o object) times() Times {
	times := Times{Offset: o.offset("offset")}
	if timestamp := o.take("timestamp"); timestamp != nil {
		number, _ := timestamp.(json.Number)
		value, err := strconv.ParseInt(number.String(), 10, 64)
		if err != nil {
			o.fail("timestamp", "expected a whole number from -2^63 to 2^63 - 1, or null")
		}
		times.Timestamp = &value
	}
	if word, found := o.values["startOrEnd"]; found && word == nil {
		delete(o.values, "startOrEnd")
		return times
	}
	times.StartOrEnd = StartOrEnd(o.word("startOrEnd", string(Start), string(End)))
	if times.Timestamp != nil {
		o.fail("timestamp", "expected null beside startOrEnd")
	}
	return times
}

func (o object) rangeMode() RangeMode {
	if !o.has("rangeMode") {
		return ""
	}
	return RangeMode(o.word("rangeMode", string(RangeSmoothed), string(RangeAnchored)))
}

func (o object) selection() Selection {
	var found Selection
	if name := o.textOrNil("name"); name != nil {
		found.Name = Name(*name)
	}
	found.Matchers = o.reader.matchers(o.path, "matchers", o.list("matchers"))
	if o.has("or_matchers") {
		groups := o.list("or_matchers")
		if len(groups) == 0 {
			o.fail("or_matchers", "expected a group")
		}
		for i, group := range groups {
			items, ok := group.([]any)
			if !ok {
				o.failItem("or_matchers", i, "expected a list")
			}
			found.OrMatchers = append(found.OrMatchers, o.reader.matchers(o.path.ofItem("or_matchers", i), "", items))
		}
	}
	found.Times = o.times()
	return found
}

// matchers reads a list of matchers, which is a member of this place, or the place itself where the member is empty.
func (r *formReader) matchers(place *path, member string, items []any) Matchers {
	var matchers Matchers
	for i, item := range items {
		if r.err != nil {
			return nil
		}
		o := r.object(place.ofItem(member, i), item)
		kind := o.word("type", string(MatchEqual), string(MatchNotEqual), string(MatchRegexp), string(MatchNotRegexp))
		matchers = append(matchers, Matcher{Name: o.text("name"), Type: MatchType(kind), Value: o.text("value")})
		o.end()
	}
	return matchers
}

// below is the object of a member.
func (o object) below(name string) object {
	return o.reader.object(o.path.of(name), o.take(name))
}

func (o object) matching(name string) *VectorMatching {
	if value, found := o.values[name]; found && value == nil {
		delete(o.values, name)
		return nil
	}
	matching := o.below(name)
	found := VectorMatching{On: matching.flag("on"), MatchingLabels: matching.texts("labels")}
	found.Card, found.Include = matching.cardinality()
	fill := matching.below("fillValues")
	found.FillValues = FillValues{LHS: fill.textOrNil("lhs"), RHS: fill.textOrNil("rhs")}
	fill.end()
	if len(matching.list("include")) > 0 {
		matching.fail("include", "expected an empty list")
	}
	matching.end()
	return &found
}

func (o object) cardinality() (Cardinality, Labels) {
	if _, ok := o.values["card"].(map[string]any); !ok {
		return Cardinality(o.word("card", string(CardOneToOne), string(CardManyToMany))), nil
	}
	card := o.below("card")
	kind := CardOneToMany
	if card.has(string(CardManyToOne)) {
		kind = CardManyToOne
	}
	labels := card.texts(string(kind))
	card.end()
	return kind, labels
}

// function reads a function, which has to be one of the table.
func (o object) function(name string) *Function {
	form := o.below(name)
	found, ok := GetFunction(form.text("name"))
	if !ok {
		form.fail("name", "expected the name of a function")
		return nil
	}
	types, variadic := form.texts("argTypes"), form.take("variadic")
	isSame := len(types) == len(found.ArgTypes) && variadic == json.Number(strconv.Itoa(found.Variadic))
	isSame = form.text("returnType") == string(found.ReturnType) && form.flag("experimental") == found.Experimental && isSame
	for i := range types {
		isSame = isSame && types[i] == string(found.ArgTypes[i])
	}
	if !isSame {
		o.fail(name, "expected the function "+found.Name)
	}
	form.end()
	return found
}
