package promql

// Clone returns a copy of a tree, of the same type, that shares nothing with it. An expression that is there twice is copied once, and is
// there twice in the copy, also below itself. Where an expression is missing it is missing in the copy.
func Clone[E Expr](expr E) E {
	if isMissing(expr) {
		return expr
	}
	copies := map[Expr]Expr{}
	for left := []Expr{expr}; len(left) > 0; {
		node := left[len(left)-1]
		left = left[:len(left)-1]
		if _, isCopied := copies[node]; !isCopied {
			copies[node] = copyOf(node)
			left = append(left, presentChildren(node)...)
		}
	}
	for _, copied := range copies {
		putChildren(copied, copies)
	}
	return copies[expr].(E)
}

// presentChildren returns the children that are not missing.
func presentChildren(expr Expr) []Expr {
	var present []Expr
	for _, child := range expr.Children() {
		if !isMissing(child) {
			present = append(present, child)
		}
	}
	return present
}

// putChildren replaces the children of an expression that are not missing by their copies.
func putChildren(expr Expr, copies map[Expr]Expr) {
	children := expr.Children()
	for i, child := range children {
		if !isMissing(child) {
			children[i] = copies[child]
		}
	}
	if len(children) > 0 {
		expr.setChildren(children)
	}
}

// copyOf returns a copy of an expression over the same children, which shares nothing else with it.
func copyOf(expr Expr) Expr {
	switch node := expr.(type) {
	case *AggregateExpr:
		copied := *node
		copied.Grouping = copyOfList(node.Grouping)
		return &copied
	case *BinaryExpr:
		copied := *node
		copied.VectorMatching = node.VectorMatching.copy()
		return &copied
	case *Call:
		copied := Call{Func: copyOfValue(node.Func), Args: copyOfList(node.Args)}
		if copied.Func != nil {
			copied.Func.ArgTypes = copyOfList(node.Func.ArgTypes)
		}
		return &copied
	case *MatrixSelector:
		copied := *node
		copied.Selection = node.Selection.copy()
		return &copied
	case *NumberLiteral:
		return copyOfValue(node)
	case *ParenExpr:
		return copyOfValue(node)
	case *StringLiteral:
		return copyOfValue(node)
	case *SubqueryExpr:
		copied := *node
		copied.Step, copied.Times = copyOfValue(node.Step), node.Times.copy()
		return &copied
	case *UnaryExpr:
		return copyOfValue(node)
	case *VectorSelector:
		return &VectorSelector{Selection: node.Selection.copy()}
	}
	return expr
}

func (s Selection) copy() Selection {
	s.Matchers, s.OrMatchers, s.Times = copyOfList(s.Matchers), copyOfList(s.OrMatchers), s.Times.copy()
	for i, group := range s.OrMatchers {
		s.OrMatchers[i] = copyOfList(group)
	}
	return s
}

func (t Times) copy() Times {
	t.Timestamp = copyOfValue(t.Timestamp)
	return t
}

func (m *VectorMatching) copy() *VectorMatching {
	copied := copyOfValue(m)
	if copied != nil {
		copied.MatchingLabels, copied.Include = copyOfList(m.MatchingLabels), copyOfList(m.Include)
		copied.FillValues = FillValues{copyOfValue(m.FillValues.LHS), copyOfValue(m.FillValues.RHS)}
	}
	return copied
}

// copyOfList returns a list of the same items, which is nil where the list is.
func copyOfList[L ~[]T, T any](list L) L {
	return append(list[:0:0], list...)
}

// copyOfValue returns a pointer to the same value, or nil for nil.
func copyOfValue[T any](value *T) *T {
	if value == nil {
		return nil
	}
	copied := *value
	return &copied
}
