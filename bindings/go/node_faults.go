package promql

import (
	"strconv"
	"strings"
)

// nodeAt returns the expression at a path, or the last one on the way there.
func nodeAt(expr Expr, place string) Expr {
	for _, step := range strings.Split(place, ".")[1:] {
		child := childAt(expr, step)
		if child == nil {
			break
		}
		expr = child
	}
	return expr
}

// childAt returns the child in this member of the JSON form, as lhs or args[0], or nil.
func childAt(expr Expr, step string) Expr {
	switch node := expr.(type) {
	case *AggregateExpr:
		if step == "param" {
			return node.Param
		}
	case *BinaryExpr:
		switch step {
		case "lhs":
			return node.LHS
		case "rhs":
			return node.RHS
		}
		return nil
	case *Call:
		number, err := strconv.Atoi(strings.TrimSuffix(strings.TrimPrefix(step, "args["), "]"))
		if err != nil || number < 0 || number >= len(node.Args) || step != at("args", number) {
			return nil
		}
		return node.Args[number]
	}
	if children := expr.Children(); step == "expr" && len(children) > 0 {
		return children[len(children)-1]
	}
	return nil
}

// placed is an expression of a tree with its path, and its number in the one above it.
type placed struct {
	node   Expr
	place  *path
	above  Expr
	number int
}

// placesIn returns the expressions of a tree in the order of Walk. None is missing.
func placesIn(expr Expr) []placed {
	var found []placed
	left := []placed{{node: expr, place: &path{}}}
	for len(left) > 0 {
		it := left[len(left)-1]
		left = left[:len(left)-1]
		found = append(found, it)
		children := it.node.Children()
		for i := len(children) - 1; i >= 0; i-- {
			left = append(left, placed{children[i], placeOfChild(it, i), it.node, i})
		}
	}
	return found
}

// placeOfChild is the path of the child of this number.
func placeOfChild(it placed, number int) *path {
	switch node := it.node.(type) {
	case *AggregateExpr:
		if node.Param != nil && number == 0 {
			return it.place.of("param")
		}
	case *BinaryExpr:
		return it.place.of([]string{"lhs", "rhs"}[number])
	case *Call:
		return it.place.ofItem("args", number)
	}
	return it.place.of("expr")
}

// firstWithoutText returns the lowest expression that has no text, though all below it have one: that is where the fault is. Each is tried
// once, over stand-ins for those below it, so that no part of the tree is printed again and again.
func firstWithoutText(expr Expr) placed {
	found := placesIn(expr)
	var below []typed
	for i := len(found) - 1; i > 0; i-- {
		it := found[i]
		// (those of the children are the last ones, the first child's at the end)
		first := len(below) - len(it.node.Children())
		children := append([]typed(nil), below[first:]...)
		below = below[:first]
		for j, k := 0, len(children)-1; j < k; j, k = j+1, k-1 {
			children[j], children[k] = children[k], children[j]
		}
		if !isReadInItsCall(it) && !hasText(overStandIns(it.node, children)) {
			return it
		}
		below = append(below, typed{it.node, valueType(it.node, children)})
	}
	return found[0]
}

func hasText(expr Expr) bool {
	form, err := formOf(expr)
	if err == nil {
		_, err = PrintTree(form, true)
	}
	return err == nil
}

// typed is an expression with its type.
type typed struct {
	node      Expr
	valueType ValueType
}

// isReadInItsCall tells whether this is the second argument of info, a selector that need not be a query by itself.
func isReadInItsCall(it placed) bool {
	call, isCall := it.above.(*Call)
	_, isSelector := it.node.(*VectorSelector)
	return isCall && isSelector && it.number == 1 && call.Func != nil && call.Func.Name == "info"
}

func valueType(expr Expr, children []typed) ValueType {
	switch node := expr.(type) {
	case *BinaryExpr:
		if children[0].valueType == ValueTypeScalar && children[1].valueType == ValueTypeScalar {
			return ValueTypeScalar
		}
	case *Call:
		if node.Func != nil {
			return node.Func.ReturnType
		}
	case *MatrixSelector, *SubqueryExpr:
		return ValueTypeMatrix
	case *NumberLiteral:
		return ValueTypeScalar
	case *ParenExpr, *UnaryExpr:
		return children[0].valueType
	case *StringLiteral:
		return ValueTypeString
	}
	return ValueTypeVector
}

// standIn returns a small expression of the same type; of a literal the literal, since its value may matter.
func standIn(it typed) Expr {
	switch it.node.(type) {
	case *NumberLiteral, *StringLiteral:
		return it.node
	}
	switch it.valueType {
	case ValueTypeMatrix:
		return &MatrixSelector{Selection: Selection{Name: "a"}, Range: 1}
	case ValueTypeScalar:
		return NewCall("time")
	case ValueTypeString:
		return &StringLiteral{}
	}
	return &VectorSelector{Selection: Selection{Name: "a"}}
}

// overStandIns returns the same expression over stand-ins for its children.
func overStandIns(expr Expr, children []typed) Expr {
	made := make([]Expr, len(children))
	for i, child := range children {
		made[i] = standIn(child)
		if isReadInItsCall(placed{child.node, nil, expr, i}) {
			made[i] = child.node
		}
	}
	if len(made) == 0 {
		return expr
	}
	copied := copyOf(expr)
	copied.setChildren(made)
	return copied
}
