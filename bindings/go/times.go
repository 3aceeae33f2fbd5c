package promql

/*
#include "promql.h"
*/
import "C"

import (
	"encoding/json"
	"errors"
	"math"
	"runtime"
	"time"
	"unicode/utf8"
	"unsafe"
)

// Errors about when a query reads. Compare with errors.Is.
var (
	// ErrTimeOverflow says that 64 bits do not hold a time of a query in milliseconds, or of Reaches, a reach in nanoseconds. An error that
	// is this one shows the node.
	ErrTimeOverflow = errors.New("a time is below -2^63 or above 2^63 - 1 milliseconds")
	// ErrGridFunction says that a query is not pinned: it calls start, end, step or range, whose values are those of the whole query.
	ErrGridFunction = errors.New("a call of `start`, `end`, `step` or `range` depends on the times of the whole query")
	// ErrTime says that a moment is no whole number of milliseconds since the epoch, or that 64 bits do not hold it.
	ErrTime = errors.New("no whole number of milliseconds")
)

// EvalTimes says when a query is evaluated, and how far an engine looks back (docs/reference/when.md of the repository, "Times").
type EvalTimes struct {
	// Start is the first time, and End the time after which there is none. They are those of @ start() and @ end(). An instant query has
	// one time, which is both.
	Start, End time.Time
	// Step is from one time to the next.
	Step time.Duration
	// Lookback is how far back a selector without a range takes a sample: five minutes where it is 0.
	Lookback time.Duration
	// DefaultStep is the step of a subquery without one: a minute where it is 0.
	DefaultStep time.Duration
	// ClosedLeft says that a sample at the very beginning of a window is read, as in Prometheus 2. In Prometheus 3 it is left out.
	ClosedLeft bool
}

// Window says what a selector reads over all times of a query: the samples from First through Last. Selector is the selector as it prints
// without its range. Never says that it is never evaluated; then First and Last are zero. The selector is the bytes of the query from Start
// up to End, with its range. Both are 0 for a target_info that is not in the query.
type Window struct {
	Selector    string
	First, Last time.Time
	Never       bool
	Start, End  int
}

// UnmarshalJSON reads a window as the library writes it: ["a",-300000,0,0,1], or ["a",null,null,0,1].
func (w *Window) UnmarshalJSON(text []byte) error {
	var first, last *int64
	if err := json.Unmarshal(text, &[]any{&w.Selector, &first, &last, &w.Start, &w.End}); err != nil {
		return err
	}
	if first == nil || last == nil {
		w.Never = true
		return nil
	}
	w.First, w.Last = time.UnixMilli(*first).UTC(), time.UnixMilli(*last).UTC()
	return nil
}

// Windows returns when each selector of a query reads, over all its times, in the order of a walk. A call of info without a second argument
// also has target_info, after its argument. The error is ErrTime or ErrDuration where the times are no whole milliseconds, and
// ErrTimeOverflow where 64 bits do not hold a window.
func Windows(query string, times EvalTimes) ([]Window, error) {
	made, err := times.inC()
	if err != nil {
		return nil, err
	}
	return rowsOf[Window](textOf(query, func(query *C.char, length C.size_t, buffer *C.char, size C.size_t, result *C.struct_promql_result) {
		C.promql_windows(query, length, &made, buffer, size, result)
	}))
}

// Reach says how far from the time of evaluation a selector reads, whatever that time is. Selector is the selector as it prints without its
// range.
type Reach struct {
	Selector string
	// First and Last are how much later than the time of evaluation the first and the last sample are that it can read; what is below 0 is
	// earlier. They are 0 where Fixed is not nil.
	First, Last time.Duration
	// Fixed is the same at every time: the selector, or a subquery around it, has an @. Of any other it is nil.
	Fixed *Window
}

// UnmarshalJSON reads a reach as the library writes it: ["a",-300000,0,false]. The error is ErrTimeOverflow where a time.Duration does not hold
// it.
func (r *Reach) UnmarshalJSON(text []byte) error {
	const most = math.MaxInt64 / int64(time.Millisecond)
	var first, last int64
	var fixed bool
	if err := json.Unmarshal(text, &[]any{&r.Selector, &first, &last, &fixed}); err != nil {
		return err
	}
	switch {
	case fixed:
		r.Fixed = &Window{Selector: r.Selector, First: time.UnixMilli(first).UTC(), Last: time.UnixMilli(last).UTC()}
	case first < -most || last > most:
		return explained{"a time.Duration does not hold the reach of `" + r.Selector + "`", ErrTimeOverflow}
	default:
		r.First, r.Last = time.Duration(first)*time.Millisecond, time.Duration(last)*time.Millisecond
	}
	return nil
}

// Reaches returns how far from the time of evaluation each selector of a query reads, whatever that time is, in the order of Windows. Of the
// times Step and DefaultStep count for nothing, and Start and End only where the query has @ start() or @ end(). The errors are those of
// Windows.
func Reaches(query string, times EvalTimes) ([]Reach, error) {
	made, err := times.inC()
	if err != nil {
		return nil, err
	}
	return rowsOf[Reach](textOf(query, func(query *C.char, length C.size_t, buffer *C.char, size C.size_t, result *C.struct_promql_result) {
		C.promql_reaches(query, length, &made, buffer, size, result)
	}))
}

// rowsOf returns the rows of a list that the library wrote.
func rowsOf[Row any](shown string, err error) (rows []Row, _ error) {
	if err != nil {
		return nil, err
	}
	if err := json.Unmarshal([]byte(shown), &rows); err != nil {
		return nil, err
	}
	return rows, nil
}

// LastRead returns the last time that a query reads where it is evaluated at this time, and whether it reads anything. Its value at this
// time is final once all samples up to there are known. The errors are those of Windows.
func LastRead(query string, at time.Time, times EvalTimes) (last time.Time, reads bool, err error) {
	millis, err := unixMilli(at)
	if err != nil {
		return time.Time{}, false, err
	}
	made, err := times.inC()
	if err != nil {
		return time.Time{}, false, err
	}
	shown, err := textOf(query, func(query *C.char, length C.size_t, buffer *C.char, size C.size_t, result *C.struct_promql_result) {
		C.promql_last_read(query, length, millis, &made, buffer, size, result)
	})
	if err != nil {
		return time.Time{}, false, err
	}
	var found *int64
	if err := json.Unmarshal([]byte(shown), &found); err != nil || found == nil {
		return time.Time{}, false, err
	}
	return time.UnixMilli(*found).UTC(), true, nil
}

// Pin returns the query on one line with these times for @ start() and @ end(). Over any times it reads at each of them what the query reads
// there from start to end, so it may be asked in parts (docs/guide/cache.md of the repository). The error is ErrGridFunction where the query
// calls start, end, step or range, and ErrTime where the times are no whole milliseconds.
func Pin(query string, start, end time.Time) (string, error) {
	first, err := unixMilli(start)
	if err != nil {
		return "", err
	}
	last, err := unixMilli(end)
	if err != nil {
		return "", err
	}
	return textOf(query, func(query *C.char, length C.size_t, buffer *C.char, size C.size_t, result *C.struct_promql_result) {
		C.promql_pinned(query, length, first, last, buffer, size, result)
	})
}

// IsConstant says whether a query is the same at every time. It may be where this says that it is not (docs/reference/when.md of the
// repository, "Constant queries").
func IsConstant(query string) (bool, error) {
	shown, err := textOf(query, func(query *C.char, length C.size_t, buffer *C.char, size C.size_t, result *C.struct_promql_result) {
		C.promql_is_constant(query, length, buffer, size, result)
	})
	return shown == "true", err
}

// MayRead says whether a query may read a series with these labels, of which __name__ is the name of the metric: whether one of its selectors
// selects the series. Where none does, the series may come or go, and what the query gives stays the same (docs/reference/when.md of the
// repository, "Series that a query may read"). The error is ErrNotUTF8 where a label is not UTF-8.
func MayRead(query string, labels map[string]string) (bool, error) {
	series := make(map[string]string, len(labels)) // (JSON has null for a nil map)
	for name, value := range labels {
		if !utf8.ValidString(name) || !utf8.ValidString(value) {
			return false, ErrNotUTF8
		}
		series[name] = value
	}
	text, err := json.Marshal(series)
	if err != nil {
		return false, err
	}
	first := (*C.char)(unsafe.Pointer(&text[0]))
	shown, err := textOf(query, func(query *C.char, length C.size_t, buffer *C.char, size C.size_t, result *C.struct_promql_result) {
		C.promql_may_read(query, length, first, C.size_t(len(text)), buffer, size, result)
	})
	runtime.KeepAlive(text)
	return shown == "true", err
}

// inC returns the times as C has them.
func (t EvalTimes) inC() (times C.struct_promql_times, err error) {
	if times.start, err = unixMilli(t.Start); err != nil {
		return times, err
	}
	if times.end, err = unixMilli(t.End); err != nil {
		return times, err
	}
	lengths := []struct {
		length, usual time.Duration
		millis        *C.uint64_t
	}{{t.Step, 0, &times.step}, {t.Lookback, 5 * time.Minute, &times.lookback}, {t.DefaultStep, time.Minute, &times.default_step}}
	for _, it := range lengths {
		if it.length == 0 {
			it.length = it.usual
		}
		millis, err := MillisecondsOf(it.length)
		if err != nil {
			return times, err
		}
		*it.millis = C.uint64_t(millis)
	}
	if !t.ClosedLeft {
		times.left_open = 1
	}
	return times, nil
}

// unixMilli returns a moment in milliseconds since the epoch.
func unixMilli(moment time.Time) (C.int64_t, error) {
	millis := moment.UnixMilli()
	if !time.UnixMilli(millis).Equal(moment) {
		return 0, explained{"no whole number of milliseconds since the epoch: " + moment.String(), ErrTime}
	}
	return C.int64_t(millis), nil
}
