package metrics

import (
	"fmt"
	"io"
	"sort"
	"strconv"
	"strings"
)

// ContentType is that of the text format.
const ContentType = "text/plain; version=0.0.4; charset=utf-8"

// page is a text that is being made.
type page struct {
	text strings.Builder
}

// head begins a metric.
func (p *page) head(name, kind, help string) {
	fmt.Fprintf(&p.text, "# HELP %s %s\n# TYPE %s %s\n", name, help, name, kind)
}

// sample writes a value of a metric with these labels.
func (p *page) sample(name, labels string, value any) {
	text := fmt.Sprint(value)
	if float, is := value.(float64); is {
		text = strconv.FormatFloat(float, 'g', -1, 64)
	}
	fmt.Fprintf(&p.text, "%s%s %s\n", name, labels, text)
}

// gauge writes a metric that is one value.
func (p *page) gauge(name, help, labels string, value any) {
	p.head(name, "gauge", help)
	p.sample(name, labels, value)
}

// counter writes a metric that is a count for each of some labels, in their order.
func (p *page) counter(name, help string, counts map[string]uint64) {
	p.head(name, "counter", help)
	all := make([]string, 0, len(counts))
	for labels := range counts {
		all = append(all, labels)
	}
	sort.Strings(all)
	for _, labels := range all {
		p.sample(name, labels, counts[labels])
	}
}

// labels returns the text of labels, given as names and values. Each value is a word of the proxy's own.
func labels(words ...string) string {
	pairs := make([]string, 0, len(words)/2)
	for i := 0; i+1 < len(words); i += 2 {
		pairs = append(pairs, words[i]+"="+strconv.Quote(words[i+1]))
	}
	return "{" + strings.Join(pairs, ",") + "}"
}

func (p *page) writeTo(out io.Writer) (int64, error) {
	written, err := io.WriteString(out, p.text.String())
	return int64(written), err
}
