// Rows makes the calls of a file, for the tests of the bindings (bindings/rows.py has the format), and prints what each gives.
// Where a number of goroutines is given, each makes all calls again, and is to get the same.
//
//	rows rows FILE [GOROUTINES]
//	rows random FILE COUNT SEED   makes COUNT broken texts of the queries of such a file, and calls with each
//	rows trees FILE               makes trees of such queries, and texts of these again (bindings/trees.py says more)
//	rows changed FILE COUNT SEED  changes COUNT of these trees at random
package main

import (
	"bufio"
	"bytes"
	"encoding/json"
	"errors"
	"fmt"
	"log"
	"math/rand"
	"os"
	"strconv"
	"sync"

	"wellapron.example/promql"
)

type call struct {
	call, mode, level int
	width             uint
	query, matcher    string
}

// calls returns the calls of a file.
func calls(data []byte) []call {
	var found []call
	for len(data) > 0 {
		end := bytes.IndexByte(data, '\n')
		var it call
		var start, stop, length int
		line := string(data[:end])
		if _, err := fmt.Sscan(line, &it.call, &it.mode, &it.level, &it.width, &start, &stop, &length); err != nil {
			log.Fatalf("%q: %v", line, err)
		}
		it.query = string(data[end+1 : end+1+length-stop])
		it.matcher = string(data[end+1+length-stop : end+1+length])
		found = append(found, it)
		data = data[end+length+2:]
	}
	return found
}

// answer is what a call gives, as rows.py reads it.
func answer(it call) string {
	var text string
	var err error
	switch {
	case it.call == 2:
		err = promql.Check(it.query)
	case it.call == 7:
		text, err = explanation(it.query)
	case it.call == 4:
		text, err = promql.Enforce(it.query, it.matcher)
	case it.call == 1 || it.mode == 0:
		text, err = promql.Canonical(it.query)
	case it.mode == 1:
		text, err = promql.Format(it.query, promql.Width(it.width), promql.Level(uint16(it.level)))
	case it.mode == 3:
		var json []byte
		json, err = promql.PlacedJSON(it.query)
		text = string(json)
	default:
		var json []byte
		json, err = promql.JSON(it.query)
		text = string(json)
	}
	var rejected *promql.QueryError
	switch {
	case err == nil:
		return fmt.Sprintf("0 0 0 0 0 %d\n%s\n", len(text), text)
	case errors.As(err, &rejected):
		status := 4
		if errors.Is(err, promql.ErrTooLarge) {
			status = 14
		}
		return fmt.Sprintf("%d %d %d %d %d %d\n%s\n", status, rejected.Start, rejected.End, rejected.Line, rejected.Column,
			len(rejected.Message), rejected.Message)
	case errors.Is(err, promql.ErrNotUTF8):
		return fmt.Sprintf("3 0 0 0 0 %d\n%s\n", len(err.Error()), err)
	case errors.Is(err, promql.ErrNotAMatcher), errors.Is(err, promql.ErrMetricName):
		return fmt.Sprintf("11 0 0 0 0 %d\n%s\n", len(err.Error()), err)
	case errors.Is(err, promql.ErrBareInfo):
		return fmt.Sprintf("13 0 0 0 0 %d\n%s\n", len(err.Error()), err)
	case errors.Is(err, promql.ErrLargeEnforced):
		return fmt.Sprintf("16 0 0 0 0 %d\n%s\n", len(err.Error()), err)
	case errors.Is(err, promql.ErrLongOutput):
		return fmt.Sprintf("18 0 0 0 0 %d\n%s\n", len(err.Error()), err)
	case errors.Is(err, promql.ErrNumberTooWide):
		return fmt.Sprintf("6 0 0 0 0 %d\n%s\n", len(err.Error()), err)
	}
	return fmt.Sprintf("1 0 0 0 0 %d\n%s\n", len(err.Error()), err)
}

// explanation returns what is said of a query, as the library has it: nothing where it is accepted.
func explanation(query string) (string, error) {
	var rejected *promql.QueryError
	if err := promql.Check(query); !errors.As(err, &rejected) {
		return "", err
	}
	told := rejected.Explain()
	code := 4
	if errors.Is(rejected, promql.ErrTooLarge) {
		code = 14
	}
	members := map[string]any{
		"code": code, "error": told.Message, "start": rejected.Start, "end": rejected.End, "line": rejected.Line, "column": rejected.Column,
	}
	if told.Found != "" {
		members["expected"], members["found"] = told.Expected, told.Found
	}
	text, err := json.Marshal(members)
	return string(text), err
}

func rows(calls []call, goroutines int) {
	answers := make([]string, len(calls))
	for i, it := range calls {
		answers[i] = answer(it)
	}
	var group sync.WaitGroup
	for n := 0; n < goroutines; n++ {
		group.Add(1)
		go func() {
			defer group.Done()
			for i, it := range calls {
				if answer(it) != answers[i] {
					log.Fatalf("call %d: another answer in a goroutine", i)
				}
			}
		}()
	}
	group.Wait()
	out := bufio.NewWriter(os.Stdout)
	for _, it := range answers {
		out.WriteString(it)
	}
	if err := out.Flush(); err != nil {
		log.Fatal(err)
	}
}

// broken returns random bytes, or a query that is cut short or changed at some bytes.
func broken(random *rand.Rand, calls []call) string {
	text := make([]byte, random.Intn(64))
	random.Read(text)
	if random.Intn(4) != 0 {
		text = []byte(calls[random.Intn(len(calls))].query)
	}
	if random.Intn(3) == 0 {
		text = text[:random.Intn(len(text)+1)]
	}
	for n := random.Intn(4); n > 0 && len(text) > 0; n-- {
		text[random.Intn(len(text))] = byte(random.Intn(256))
	}
	return string(text)
}

func brokenTexts(calls []call, count int, seed int64) {
	random := rand.New(rand.NewSource(seed))
	for n := 0; n < count; n++ {
		query := broken(random, calls)
		line, err := promql.Canonical(query)
		_, laid := promql.Format(query, promql.Width(uint(random.Intn(100))), promql.Level(uint16(random.Intn(10))))
		if checked := promql.Check(query); (checked == nil) != (err == nil) || (laid == nil) != (err == nil) {
			log.Fatalf("%q: %v, %v, %v", query, err, laid, checked)
		}
		var rejected *promql.QueryError
		if errors.As(err, &rejected) {
			rejected.Snippet()
		} else if again, _ := promql.Canonical(line); err == nil && again != line {
			log.Fatalf("%q: %q, %q", query, line, again)
		}
	}
	fmt.Printf("%d passed, 0 failed\n", count)
}

func number(word string) int {
	found, err := strconv.Atoi(word)
	if err != nil {
		log.Fatal(err)
	}
	return found
}

func main() {
	words := os.Args[1:]
	if len(words) < 2 {
		log.Fatal("usage: rows rows FILE [GOROUTINES] | rows random FILE COUNT SEED | rows trees FILE | rows changed FILE COUNT SEED")
	}
	data, err := os.ReadFile(words[1])
	if err != nil {
		log.Fatal(err)
	}
	promql.SetLimits(1048576, 32000) // those of the stored run, whose queries have no target
	if err := promql.SetTarget(promql.Rules); err != nil {
		log.Fatal(err)
	}
	switch {
	case words[0] == "rows" && len(words) == 2:
		rows(calls(data), 0)
	case words[0] == "rows" && len(words) == 3:
		rows(calls(data), number(words[2]))
	case words[0] == "random" && len(words) == 4:
		brokenTexts(calls(data), number(words[2]), int64(number(words[3])))
	case words[0] == "trees" && len(words) == 2:
		trees(calls(data))
	case words[0] == "changed" && len(words) == 4:
		changed(calls(data), number(words[2]), int64(number(words[3])))
	default:
		log.Fatal("unknown arguments")
	}
}
