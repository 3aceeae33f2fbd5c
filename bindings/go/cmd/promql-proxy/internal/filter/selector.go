package filter

import (
	"errors"
	"regexp"
	"regexp/syntax"

	"wellapron.example/promql"
)

// ErrSteps says that the patterns of selectors take too many steps for the labels of rules.
var ErrSteps = errors.New("the patterns are too large for so many rules")

// The most steps that the patterns of a request may take: each byte of a value is one for each instruction of the program of a pattern. They
// take a quarter of a second.
const maxSteps = 10_000_000

// Selectors are selectors of rules.
type Selectors struct {
	all   []selector
	steps int
}

// selector has the matchers that all have to match, and groups of which one has to.
type selector struct {
	always []matcher
	groups [][]matcher
}

// matcher is a matcher with its pattern, and how many instructions that has; of a text there is none.
type matcher struct {
	promql.Matcher
	pattern *regexp.Regexp
	size    int
}

// Add adds a selector. It selects rules as Prometheus does it: a label that is not there is empty, and a rule has no name of a metric among
// its labels.
func (s *Selectors) Add(selection *promql.Selection) error {
	all := selection.Matchers
	if selection.Name != "" {
		all = append(promql.Matchers{{Name: "__name__", Type: promql.MatchEqual, Value: string(selection.Name)}}, all...)
	}
	always, err := compiled(all)
	if err != nil {
		return err
	}
	made := selector{always: always}
	for _, matchers := range selection.OrMatchers {
		group, err := compiled(matchers)
		if err != nil {
			return err
		}
		made.groups = append(made.groups, group)
	}
	s.all = append(s.all, made)
	return nil
}

func compiled(matchers promql.Matchers) ([]matcher, error) {
	made := make([]matcher, len(matchers))
	for i, it := range matchers {
		made[i].Matcher = it
		if it.Type == promql.MatchEqual || it.Type == promql.MatchNotEqual {
			continue
		}
		text := "^(?s:" + it.Value + ")$"
		parsed, err := syntax.Parse(text, syntax.Perl)
		if err != nil {
			return nil, err
		}
		program, err := syntax.Compile(parsed.Simplify())
		if err != nil {
			return nil, err
		}
		made[i].size = len(program.Inst)
		if made[i].pattern, err = regexp.Compile(text); err != nil {
			return nil, err
		}
	}
	return made, nil
}

// Select says whether one of the selectors selects these labels; so does none at all. Once there were too many steps, nothing is selected, and
// Err says so.
func (s *Selectors) Select(labels map[string]string) bool {
	if len(s.all) == 0 {
		return true
	}
	for _, it := range s.all {
		if s.match(it.always, labels) && (len(it.groups) == 0 || s.matchOne(it.groups, labels)) {
			return s.Err() == nil
		}
	}
	return false
}

// Err returns ErrSteps where there were too many steps.
func (s *Selectors) Err() error {
	if s.steps > maxSteps {
		return ErrSteps
	}
	return nil
}

func (s *Selectors) matchOne(groups [][]matcher, labels map[string]string) bool {
	for _, matchers := range groups {
		if s.match(matchers, labels) {
			return true
		}
	}
	return false
}

// match says whether all of the matchers match.
func (s *Selectors) match(matchers []matcher, labels map[string]string) bool {
	for _, it := range matchers {
		value := labels[it.Name]
		found := value == it.Value
		if it.pattern != nil {
			if s.steps += it.size * (len(value) + 1); s.steps > maxSteps {
				return false
			}
			found = it.pattern.MatchString(value)
		}
		if found == (it.Type == promql.MatchNotEqual || it.Type == promql.MatchNotRegexp) {
			return false
		}
	}
	return true
}
