package promql

import (
	"strconv"
	"strings"
)

// path is where a value of a form is: in a member of the one above, or in an item of a list that is one, or, where nothing is above, the
// whole form. Its text is made where an error needs it.
type path struct {
	above  *path
	member string
	// The item, from 1; 0 where the value is the member itself.
	item int
}

func (p *path) String() string {
	var steps []string
	for ; p.above != nil; p = p.above {
		step := p.member
		if p.item > 0 {
			step = at(step, p.item-1)
		}
		steps = append(steps, step)
	}
	steps = append(steps, "$")
	for i, j := 0, len(steps)-1; i < j; i, j = i+1, j-1 {
		steps[i], steps[j] = steps[j], steps[i]
	}
	return strings.ReplaceAll(strings.Join(steps, "."), ".[", "[")
}

// of is the path of a member.
func (p *path) of(member string) *path {
	return &path{above: p, member: member}
}

// ofItem is the path of an item of a list that is a member; of a list within a list the member is empty.
func (p *path) ofItem(member string, number int) *path {
	return &path{p, member, number + 1}
}

// at is the path of an item of a list.
func at(name string, number int) string {
	return name + "[" + strconv.Itoa(number) + "]"
}
