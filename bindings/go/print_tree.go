package promql

/*
#include "promql.h"
*/
import "C"

import (
	"encoding/json"
	"errors"
	"fmt"
	"strings"
)

// Errors of trees, each of which is ErrNotATree, too. Compare with errors.Is.
var (
	// ErrMissingExpr says that there is no expression where one has to be: nil, or a nil pointer.
	ErrMissingExpr = fmt.Errorf("%w: an expression is missing", ErrNotATree)
	// ErrBelowItself says that an expression is below itself.
	ErrBelowItself = fmt.Errorf("%w: an expression is below itself", ErrNotATree)
	// ErrTooDeep says that a form has more arrays and objects within one another than are read.
	ErrTooDeep = fmt.Errorf("%w: it is nested too deeply", ErrNotATree)
	// ErrUnknownFunction says that no function has the name of a call. An error that is this one has the name, or its first 32 characters.
	ErrUnknownFunction = fmt.Errorf("%w: a function is unknown", ErrNotATree)
)

// NodeError says why a tree has no text. Path is that of the part at fault in the JSON form, as $.lhs.args[0], and Node the expression
// there, or the one that has it. It is ErrNotATree, and where that says why, ErrMissingExpr, ErrBelowItself, ErrTooDeep or
// ErrUnknownFunction; ErrUnfaithful where the text would mean another tree, as with an argument of a wrong type; ErrTooLargeTree; or
// ErrNotUTF8.
type NodeError struct {
	Path    string
	Message string
	Node    Expr
	cause   error
}

func (e *NodeError) Error() string {
	return e.Path + ": " + e.Message
}

// Unwrap returns which of these errors it is.
func (e *NodeError) Unwrap() error {
	return e.cause
}

// Place is a part of a query: its bytes from Start up to End.
type Place struct {
	Start, End int
}

// Places returns the place of each node of the query's tree, in the order of Walk. A sign before a number belongs to the number, and a postfix
// such as offset to what it changes.
func Places(query string) ([]Place, error) {
	text, err := textOf(query, func(query *C.char, length C.size_t, buffer *C.char, size C.size_t, result *C.struct_promql_result) {
		C.promql_places(query, length, buffer, size, result)
	})
	if err != nil {
		return nil, err
	}
	var pairs [][2]int
	if err := json.Unmarshal([]byte(text), &pairs); err != nil {
		return nil, err
	}
	places := make([]Place, len(pairs))
	for i, pair := range pairs {
		places[i] = Place{pair[0], pair[1]}
	}
	return places, nil
}

// ParsePlaced returns the tree of the query, as Parse does, and the place of each of its nodes.
func ParsePlaced(query string) (Expr, map[Expr]Place, error) {
	expr, err := Parse(query)
	if err != nil {
		return nil, nil, err
	}
	places, err := Places(query)
	if err != nil {
		return nil, nil, err
	}
	found := make(map[Expr]Place, len(places))
	Inspect(expr, func(node Expr, _ []Expr) error {
		if node != nil {
			found[node], places = places[0], places[1:]
		}
		return nil
	})
	return expr, found, nil
}

// PrintTree returns the query that has the tree of this JSON form (docs/reference/json.md of the repository), on one line, or as Format does
// where there are options; with parentheses where the tree needs them, if parentheses is true. What is returned is within the limits of a
// query, was read again, and means the tree. The errors are ErrNotATree, ErrUnfaithful, ErrTooLargeTree and those without a place.
func PrintTree(form []byte, parentheses bool, options ...Option) (string, error) {
	made, mode := layout{width: 100}, C.uint32_t(C.PROMQL_LINE)
	for _, set := range options {
		set(&made)
		mode = C.PROMQL_PRETTY
	}
	needed := C.uint32_t(0)
	if parentheses {
		needed = 1
	}
	if cap(form) == 0 {
		form = bytesOf("")
	}
	text, result := callOver(form, len(form), func(tree *C.char, length C.size_t, buffer *C.char, size C.size_t, result *C.struct_promql_result) {
		C.promql_print_tree(tree, length, mode, C.uint32_t(made.level), C.size_t(made.width), needed, buffer, size, result)
	})
	switch result.status {
	case C.PROMQL_TOO_LARGE:
		return "", explained{text, ErrTooLargeTree}
	case C.PROMQL_UNFAITHFUL:
		return "", explained{text, ErrUnfaithful}
	case C.PROMQL_NOT_A_TREE:
		return "", explained{text, ErrNotATree}
	default:
		return textOrError(string(form), text, result)
	}
}

// Print returns the text of a tree, on one line, or as Format does where there are options; in parentheses where the tree needs them. The
// library read what it printed again: it has this tree. Where there is no such text the error is a *NodeError.
func Print(expr Expr, options ...Option) (string, error) {
	text, err := withForm(expr, func(form []byte) (string, error) { return PrintTree(form, true, options...) })
	var said explained
	if !errors.As(err, &said) {
		return text, err
	}
	failed := &NodeError{"$", said.message, expr, said.cause}
	switch said.cause {
	case ErrNotATree:
		failed.locate()
	case ErrUnfaithful:
		it := firstWithoutText(expr)
		failed.Path, failed.Node = it.place.String(), it.node
	}
	return "", failed
}

// locate finds the expression at fault in a tree by the message of the library, which begins with its path. One without a path is of a form
// that is JSON, but deeper than the library reads.
func (e *NodeError) locate() {
	path, message, found := strings.Cut(e.Message, ": ")
	if !found {
		e.Message, e.cause = tooDeep, ErrTooDeep
		return
	}
	e.Path, e.Message, e.Node = path, message, nodeAt(e.Node, path)
	if call, isCall := e.Node.(*Call); isCall && strings.HasSuffix(path, ".func.name") {
		e.Message, e.cause = fmt.Sprintf("no function is called %.32q", call.Func.Name), ErrUnknownFunction
	}
}
