// Reads lines of JSON: [pattern, text, text, ..]. Writes for each pattern "no" where Go's regexp rejects it, anchored as Prometheus
// anchors it, and else a 1 or a 0 for each text: whether the pattern matches it.
package main

import (
	"bufio"
	"encoding/json"
	"fmt"
	"os"
	"regexp"
)

func main() {
	in := bufio.NewScanner(os.Stdin)
	in.Buffer(make([]byte, 1<<20), 1<<24)
	out := bufio.NewWriter(os.Stdout)
	defer out.Flush()
	for in.Scan() {
		var line []string
		if err := json.Unmarshal(in.Bytes(), &line); err != nil {
			fmt.Fprintln(os.Stderr, err)
			os.Exit(1)
		}
		pattern, err := regexp.Compile("^(?:" + line[0] + ")$")
		if err != nil {
			fmt.Fprintln(out, "no")
			continue
		}
		fmt.Fprint(out, "yes ")
		for _, text := range line[1:] {
			if pattern.MatchString(text) {
				fmt.Fprint(out, "1")
			} else {
				fmt.Fprint(out, "0")
			}
		}
		fmt.Fprintln(out)
	}
}
