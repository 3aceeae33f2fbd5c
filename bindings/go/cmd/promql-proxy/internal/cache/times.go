package cache

import (
	"math"
	"net/url"
	"regexp"
	"strconv"
	"time"

	"wellapron.example/promql"
)

const (
	// maxPoints is how many steps of a range query Prometheus takes. It refuses more, of the whole range, so that is not split.
	maxPoints = 11000
	// maxParts bounds what one request may cost: a year of days, and some more.
	maxParts = 400
	// maxSeconds bounds the times that are read. A floating point number holds each millisecond up to there, and well beyond.
	maxSeconds = 1e11
)

// grid has the times of a range query: start, start+step and so on up to end, in milliseconds since the epoch.
type grid struct {
	start, end, step int64
}

// part is a run of the times of a query, from the first through the last of them.
type part struct {
	first, last int64
}

// readGrid reads the times of a request as Prometheus does. There are none where it would refuse them, where they lie before the epoch, or
// where they are no whole milliseconds.
func readGrid(parameters url.Values) (grid, bool) {
	start, hasStart := readTime(parameters.Get("start"))
	end, hasEnd := readTime(parameters.Get("end"))
	step, hasStep := readDuration(parameters.Get("step"))
	if !hasStart || !hasEnd || !hasStep || start < 0 || end < start || step <= 0 || (end-start)/step > maxPoints {
		return grid{}, false
	}
	return grid{start, end, step}, true
}

// readTime reads a number of seconds or a time of RFC 3339. Prometheus rounds a number to milliseconds.
func readTime(text string) (int64, bool) {
	if seconds, err := strconv.ParseFloat(text, 64); err == nil {
		whole, rest := math.Modf(seconds)
		if !(math.Abs(whole) < maxSeconds) {
			return 0, false
		}
		return int64(whole)*1000 + int64(math.Round(rest*1000)), true
	}
	moment, err := time.Parse(time.RFC3339Nano, text)
	if err != nil || moment.Nanosecond()%int(time.Millisecond) != 0 {
		return 0, false
	}
	return moment.UnixMilli(), true
}

// What may be a duration, such as 1h30m: nothing in it ends the brackets around it.
var durationLike = regexp.MustCompile(`^[0-9a-z]+$`)

// readDuration reads a number of seconds or a duration, in milliseconds. What a duration is, the library says.
func readDuration(text string) (int64, bool) {
	if seconds, err := strconv.ParseFloat(text, 64); err == nil {
		if !(math.Abs(seconds) < maxSeconds/1000) {
			return 0, false
		}
		duration := time.Duration(seconds * float64(time.Second))
		return duration.Milliseconds(), duration%time.Millisecond == 0
	}
	if !durationLike.MatchString(text) {
		return 0, false
	}
	tree, err := promql.Parse("a[" + text + "]")
	if err != nil {
		return 0, false
	}
	found, is := tree.(*promql.MatrixSelector)
	if !is {
		return 0, false
	}
	return int64(found.Range), true
}

// seconds writes milliseconds as the seconds that readTime and Prometheus read.
func seconds(millis int64) string {
	return strconv.FormatFloat(float64(millis)/1000, 'f', -1, 64)
}

// split cuts the times of a query before each multiple of a length. There is nothing where that gives too many parts.
func (g grid) split(length int64) []part {
	var parts []part
	last := g.start + (g.end-g.start)/g.step*g.step
	for first := g.start; first <= last; first = parts[len(parts)-1].last + g.step {
		if len(parts) == maxParts {
			return nil
		}
		cut := (first/length + 1) * length
		end := first + (cut-1-first)/g.step*g.step
		if end > last {
			end = last
		}
		parts = append(parts, part{first, end})
	}
	return parts
}

// eval returns when the query is evaluated in a part. It reads no later, whatever the server's default step of subqueries is, and whether it
// leaves out the beginning of a window: so the times of the last reads are right for every Prometheus.
func (p part) eval(step, lookback int64) promql.EvalTimes {
	return promql.EvalTimes{
		Start: time.UnixMilli(p.first), End: time.UnixMilli(p.last), Step: time.Duration(step) * time.Millisecond,
		Lookback: time.Duration(lookback) * time.Millisecond, DefaultStep: time.Millisecond, ClosedLeft: true,
	}
}
