package promql

import "strings"

// The library prints whole queries. So each part of one is printed in an expression that has it, and is what remains without the rest.

// String returns the matcher as it is within braces, as job="a", or the error of Print within %!(..): that of a selector with the matcher.
func (m Matcher) String() string {
	if m.Name == "__name__" {
		// (no name can be before the braces, and a matcher that takes any value needs another one beside it)
		other := Matcher{Name: "a", Type: MatchEqual, Value: "a"}
		return textBetween("{", &VectorSelector{Selection: Selection{Matchers: Matchers{m, other}}}, `,a="a"}`)
	}
	return textBetween("a{", &VectorSelector{Selection: Selection{Name: "a", Matchers: Matchers{m}}}, "}")
}

// String returns the selector on one line, without a range, or the error of Print within %!(..).
func (s Selection) String() string {
	return lineOrError(&VectorSelector{Selection: s})
}

// String returns the offset and the time after @ as they print, as @ end() offset 5m, which is empty where there are none, or the error of
// Print within %!(..): that of a selector with them.
func (t Times) String() string {
	return textBetween("a", &VectorSelector{Selection: Selection{Name: "a", Times: t}}, "")
}

// String returns the offset as it prints, as offset 5m, or an empty text for none.
func (o Offset) String() string {
	return Times{Offset: o}.String()
}

// String returns what is between an operator and its right side, as on (job) group_left (env), which may be empty, or the error of Print
// within %!(..): that of a binary expression with the matching.
func (m *VectorMatching) String() string {
	side := &VectorSelector{Selection: Selection{Name: "a"}}
	between := &BinaryExpr{Op: "+", LHS: side, RHS: side, VectorMatching: m}
	if m != nil && m.Card == CardManyToMany {
		between.Op = "and"
	}
	return textBetween("a "+between.Op, between, "a")
}

// textBetween returns what the line of an expression has between its beginning and its end, without spaces around it, or the error of Print
// within %!(..).
func textBetween(before string, expr Expr, after string) string {
	line, err := Print(expr)
	if err != nil {
		return "%!(" + err.Error() + ")"
	}
	return strings.TrimSpace(strings.TrimSuffix(strings.TrimPrefix(line, before), after))
}
