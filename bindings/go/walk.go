package promql

import "errors"

// Visitor is what Walk calls at each expression of a tree. Where the visitor that it returns is not nil, and the error is, that one visits
// the expressions below, and then nil. The path has the expressions above, the highest first; it is the walk's own and changes with it, so
// a visitor that keeps it copies it.
type Visitor interface {
	Visit(node Expr, path []Expr) (w Visitor, err error)
}

// Walk visits an expression and those below it, each before those below it and these in the order of Children. It returns the first error
// of the visitor, which ends it. Where an expression is missing, or below itself, the walk ends with a *NodeError that names the one above.
func Walk(v Visitor, node Expr, path []Expr) error {
	walker := treeWalker{above: map[Expr]struct{}{}, path: path[:len(path):len(path)]}
	return walker.walk(v, node)
}

// treeWalker is at an expression: the path has those above it, and the set those of them that it came by.
type treeWalker struct {
	above map[Expr]struct{}
	path  []Expr
}

func (w *treeWalker) walk(v Visitor, node Expr) error {
	if isMissing(node) {
		return w.fault(missing, ErrMissingExpr)
	}
	if _, isAbove := w.above[node]; isAbove {
		return w.fault(belowSelf, ErrBelowItself)
	}
	v, err := v.Visit(node, w.path)
	if v == nil || err != nil {
		return err
	}
	w.above[node] = struct{}{}
	w.path = append(w.path, node)
	for _, child := range node.Children() {
		if err := w.walk(v, child); err != nil {
			return err
		}
	}
	w.path = w.path[:len(w.path)-1]
	delete(w.above, node)
	_, err = v.Visit(nil, nil)
	return err
}

// fault is the error of what is below the last expression of the path.
func (w *treeWalker) fault(message string, cause error) error {
	if len(w.path) == 0 {
		return &NodeError{"$", message, nil, cause}
	}
	_, err := formOf(w.path[0])
	if failed, isFault := err.(*NodeError); isFault {
		failed.Node = w.path[len(w.path)-1]
		return failed
	}
	return &NodeError{"$", message, w.path[len(w.path)-1], cause}
}

// Inspect calls the function at an expression and at those below it, in the order of Walk. An error of the function ends it, and is not
// returned; so does an expression that is missing, or below itself.
func Inspect(node Expr, f func(node Expr, path []Expr) error) {
	_ = Walk(inspector(f), node, nil)
}

type inspector func(Expr, []Expr) error

func (f inspector) Visit(node Expr, path []Expr) (Visitor, error) {
	if node == nil {
		return nil, nil
	}
	return f, f(node, path)
}

// All returns an iterator over an expression and those below it, in the order of Walk: from Go 1.23 on, `for node := range All(expr)`, and
// before that All(expr)(f), where f returns whether it goes on. It ends at an expression that is missing, or below itself.
func All(expr Expr) func(yield func(Expr) bool) {
	return func(yield func(Expr) bool) {
		Inspect(expr, func(node Expr, _ []Expr) error {
			if !yield(node) {
				return errEnded
			}
			return nil
		})
	}
}

var errEnded = errors.New("the loop over an iterator ended")

// Transform changes a tree in place, and returns it. The function is called with each expression, once those below it are what it returned
// for them, and returns what takes its place; one that it returns as it is stays. It is not called where an expression is missing, or below
// itself: Print tells of that.
func Transform(expr Expr, f func(Expr) Expr) Expr {
	return transform(expr, f, map[Expr]struct{}{})
}

func transform(expr Expr, f func(Expr) Expr, above map[Expr]struct{}) Expr {
	if isMissing(expr) {
		return expr
	}
	if _, isAbove := above[expr]; isAbove {
		return expr
	}
	above[expr] = struct{}{}
	children := expr.Children()
	for i, child := range children {
		children[i] = transform(child, f, above)
	}
	if len(children) > 0 {
		expr.setChildren(children)
	}
	delete(above, expr)
	return f(expr)
}
