package cache

import (
	"bytes"
	"encoding/json"
	"sort"
)

// series is a series of an answer, each piece as the server wrote it: its labels, and what is within the brackets of its points. A piece
// that it does not have is nil.
type series struct {
	metric, values, histograms []byte
}

// matrix is the answer to a range query: its series, in the order of their labels.
type matrix []series

// readAnswer reads an answer. The errors are ErrWhole and ErrNotKept. It is one that is kept if, written again, it is the same text, and if its series are in order.
func readAnswer(text []byte) (matrix, error) {
	var said struct {
		Data struct {
			Result []struct{ Metric, Values, Histograms json.RawMessage }
		}
	}
	if err := json.Unmarshal(text, &said); err != nil {
		// It may be half an answer, and whole the next time.
		return nil, ErrWhole
	}
	read := make(matrix, len(said.Data.Result))
	for i, it := range said.Data.Result {
		read[i] = series{it.Metric, inBrackets(it.Values), inBrackets(it.Histograms)}
	}
	if !inOrder(read) || !bytes.Equal(join([]matrix{read}).write(), text) {
		return nil, ErrNotKept
	}
	return read, nil
}

// inBrackets returns what is within the brackets of a list, and nil where there is none.
func inBrackets(list []byte) []byte {
	if len(list) < 2 {
		return nil
	}
	return list[1 : len(list)-1]
}

// size is how many bytes the pieces of an answer have.
func (m matrix) size() int64 {
	size := 0
	for _, it := range m {
		size += len(it.metric) + len(it.values) + len(it.histograms)
	}
	return int64(size)
}

// joined is a series of an answer that is joined, with its points in the order of the parts.
type joined struct {
	metric             []byte
	values, histograms [][]byte
}

// answer is an answer that is joined.
type answer []joined

// join returns the answer over all times, of the answers to its parts in their order.
func join(parts []matrix) answer {
	var all answer
	places := map[string]int{}
	isMixed := false
	for _, part := range parts {
		isFirst := len(all) == 0
		for i, it := range part {
			// (mostly each part has the same series)
			at, has := i, i < len(all) && bytes.Equal(all[i].metric, it.metric)
			if !has {
				at, has = places[string(it.metric)]
			}
			if !has {
				at = len(all)
				places[string(it.metric)] = at
				all = append(all, joined{metric: it.metric})
				isMixed = isMixed || !isFirst
			}
			all[at].add(it)
		}
	}
	if isMixed {
		all.sort()
	}
	return all
}

func (j *joined) add(it series) {
	if it.values != nil {
		j.values = append(j.values, it.values)
	}
	if it.histograms != nil {
		j.histograms = append(j.histograms, it.histograms)
	}
}

// write writes the answer as a server does.
func (a answer) write() []byte {
	var text bytes.Buffer
	text.Grow(a.room())
	text.WriteString(`{"status":"success","data":{"resultType":"matrix","result":[`)
	for i, it := range a {
		if i > 0 {
			text.WriteByte(',')
		}
		text.WriteString(`{"metric":`)
		text.Write(it.metric)
		writePoints(&text, `,"values":[`, it.values)
		writePoints(&text, `,"histograms":[`, it.histograms)
		text.WriteByte('}')
	}
	text.WriteString(`]}}`)
	return text.Bytes()
}

// room is as many bytes as the answer has, or some more.
func (a answer) room() int {
	const around = len(`{"status":"success","data":{"resultType":"matrix","result":[{"metric":,"values":[],"histograms":[]},`)
	room := around
	for _, it := range a {
		room += around + len(it.metric)
		for _, points := range [][][]byte{it.values, it.histograms} {
			for _, piece := range points {
				room += len(piece) + 1
			}
		}
	}
	return room
}

func writePoints(text *bytes.Buffer, head string, points [][]byte) {
	for i, it := range points {
		if i == 0 {
			text.WriteString(head)
		} else {
			text.WriteByte(',')
		}
		text.Write(it)
	}
	if points != nil {
		text.WriteByte(']')
	}
}

// label is a name and a value.
type label struct {
	name, value string
}

// labelsOf returns the labels of a series in the order of their names. A text that is no object has none.
func labelsOf(metric []byte) []label {
	var read map[string]string
	if err := json.Unmarshal(metric, &read); err != nil {
		return nil
	}
	labels := make([]label, 0, len(read))
	for name, value := range read {
		labels = append(labels, label{name, value})
	}
	sort.Slice(labels, func(i, j int) bool { return labels[i].name < labels[j].name })
	return labels
}

// isBefore says whether labels come before others in an answer of Prometheus.
func isBefore(labels, others []label) bool {
	for i := range labels {
		switch {
		case i == len(others):
			return false
		case labels[i].name != others[i].name:
			return labels[i].name < others[i].name
		case labels[i].value != others[i].value:
			return labels[i].value < others[i].value
		}
	}
	return len(labels) < len(others)
}

// inOrder says whether each series comes before the next one.
func inOrder(all matrix) bool {
	var before []label
	for i, it := range all {
		labels := labelsOf(it.metric)
		if i > 0 && !isBefore(before, labels) {
			return false
		}
		before = labels
	}
	return true
}

// sort brings the series into the order of their labels.
func (a answer) sort() {
	labels := make(map[string][]label, len(a))
	for _, it := range a {
		labels[string(it.metric)] = labelsOf(it.metric)
	}
	sort.Slice(a, func(i, j int) bool { return isBefore(labels[string(a[i].metric)], labels[string(a[j].metric)]) })
}
