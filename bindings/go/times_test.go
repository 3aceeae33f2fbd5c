package promql_test

import (
	"errors"
	"reflect"
	"testing"
	"time"

	"wellapron.example/promql"
)

func TestWindows(t *testing.T) {
	at := func(seconds int64) time.Time { return time.Unix(seconds, 0).UTC() }
	times := promql.EvalTimes{Start: at(1000), End: at(1500), Step: 200 * time.Second, ClosedLeft: true}
	found, err := promql.Windows("info(rate(a[5m] @ start() offset -1m)) + b[1m:1h] > bool c", times)
	if !errors.As(err, new(*promql.QueryError)) || found != nil {
		t.Error(found, err)
	}
	found, err = promql.Windows("info(rate(a{b='é'}[5m] @ start() offset -1m)) + max_over_time(b[1m:1h])", times)
	wanted := []promql.Window{
		{Selector: `a{b="é"} @ start() offset -1m`, First: at(760), Last: at(1060), Start: 10, End: 44},
		{Selector: "target_info", First: at(700), Last: at(1400)},
		{Selector: "b", Never: true, Start: 63, End: 64},
	}
	if err != nil || !reflect.DeepEqual(found, wanted) {
		t.Errorf("%v %v", found, err)
	}
	times.ClosedLeft, times.Lookback, times.DefaultStep = false, time.Minute, 7*time.Second
	found, err = promql.Windows("a + max_over_time(b[20s:])", times)
	wanted = []promql.Window{
		{Selector: "a", First: at(940).Add(time.Millisecond), Last: at(1400), End: 1},
		{Selector: "b", First: at(927).Add(time.Millisecond), Last: at(1400), Start: 18, End: 19},
	}
	if err != nil || !reflect.DeepEqual(found, wanted) {
		t.Errorf("%v %v", found, err)
	}
	if found, err := promql.Windows("1", times); err != nil || len(found) != 0 {
		t.Error(found, err)
	}
	_, err = promql.Windows("b + a @ -9223372036854775.808", times)
	if !errors.Is(err, promql.ErrTimeOverflow) || err.Error() != "a time of `a @ -9223372036854775.808` is below -2^63 or above 2^63 - 1 milliseconds" {
		t.Error(err)
	}
	found, err = promql.Windows("a @ 9223372036854775.807", promql.EvalTimes{ClosedLeft: true, Start: at(0), End: at(0)})
	if err != nil || len(found) != 1 || found[0].Last.UnixMilli() != 1<<63-1 || found[0].First.UnixMilli() != 1<<63-1-300_000 {
		t.Error(found, err)
	}
}

func TestBadTimes(t *testing.T) {
	start := time.UnixMilli(5)
	bad := []promql.EvalTimes{
		{Start: start.Add(time.Microsecond), End: start},
		{Start: start, End: start.Add(time.Nanosecond)},
		{Start: start, End: time.Unix(1<<62, 0)},
		{Start: start, End: start, Step: -time.Second},
		{Start: start, End: start, Lookback: time.Microsecond},
		{Start: start, End: start, DefaultStep: -1},
	}
	for _, times := range bad {
		if _, err := promql.Windows("a", times); !errors.Is(err, promql.ErrTime) && !errors.Is(err, promql.ErrDuration) {
			t.Error(times, err)
		}
		if _, _, err := promql.LastRead("a", start, times); err == nil {
			t.Error(times)
		}
	}
	if _, err := promql.Pin("a", start, start.Add(1)); !errors.Is(err, promql.ErrTime) {
		t.Error(err)
	}
	if _, _, err := promql.LastRead("a", start.Add(1), promql.EvalTimes{Start: start, End: start}); !errors.Is(err, promql.ErrTime) {
		t.Error(err)
	}
}

func TestLastRead(t *testing.T) {
	at := func(seconds int64) time.Time { return time.Unix(seconds, 0).UTC() }
	times := promql.EvalTimes{Start: at(0), End: at(3600), Step: time.Minute}
	rows := []struct {
		query string
		last  time.Time
		reads bool
	}{
		{"a", at(60), true}, {"a offset -5m + b offset 5m", at(360), true}, {"a @ end()", at(3600), true}, {"1", time.Time{}, false},
	}
	for _, row := range rows {
		last, reads, err := promql.LastRead(row.query, at(60), times)
		if err != nil || reads != row.reads || !last.Equal(row.last) {
			t.Error(row.query, last, reads, err)
		}
	}
	if _, _, err := promql.LastRead("1 +", at(60), times); !errors.As(err, new(*promql.QueryError)) {
		t.Error(err)
	}
}

func TestPin(t *testing.T) {
	line, err := promql.Pin("sum(a@end()) by(b) - c @ start()", time.UnixMilli(-250), time.Unix(3600, 0))
	if err != nil || line != "sum by (b) (a @ 3600.000) - c @ -0.250" {
		t.Error(line, err)
	}
	if _, err := promql.Pin("a > end()", time.Unix(0, 0), time.Unix(1, 0)); !errors.Is(err, promql.ErrGridFunction) {
		t.Error(err)
	}
	for query, wanted := range map[string]bool{"a @ end() + 1": true, "a + 1": false} {
		if constant, err := promql.IsConstant(query); err != nil || constant != wanted {
			t.Error(query, constant, err)
		}
	}
	if _, err := promql.IsConstant("1 +"); !errors.As(err, new(*promql.QueryError)) {
		t.Error(err)
	}
}

func TestReaches(t *testing.T) {
	at := func(seconds int64) time.Time { return time.Unix(seconds, 0).UTC() }
	times := promql.EvalTimes{Start: at(1000), End: at(1500), ClosedLeft: true}
	found, err := promql.Reaches("rate(a{b='é'}[1m] offset -5m) + info(b @ end() offset 1m)", times)
	fixed := promql.Window{Selector: "b @ end() offset 1m", First: at(1140), Last: at(1440)}
	wanted := []promql.Reach{
		{Selector: `a{b="é"} offset -5m`, First: 4 * time.Minute, Last: 5 * time.Minute},
		{Selector: fixed.Selector, Fixed: &fixed},
		{Selector: "target_info", First: -5 * time.Minute},
	}
	if err != nil || !reflect.DeepEqual(found, wanted) {
		t.Errorf("%v %v", found, err)
	}
	found, err = promql.Reaches("max_over_time(a[5m:1h])", promql.EvalTimes{Lookback: time.Minute})
	wanted = []promql.Reach{{Selector: "a", First: 2*time.Millisecond - 6*time.Minute}}
	if err != nil || !reflect.DeepEqual(found, wanted) {
		t.Errorf("%v %v", found, err)
	}
	if found, err := promql.Reaches("1", times); err != nil || len(found) != 0 {
		t.Error(found, err)
	}
	if found, err := promql.Reaches("1 +", times); !errors.As(err, new(*promql.QueryError)) || found != nil {
		t.Error(found, err)
	}
	_, err = promql.Reaches("a + b @ -9223372036854775.808", times)
	if !errors.Is(err, promql.ErrTimeOverflow) || err.Error() != "a time of `b @ -9223372036854775.808` is below -2^63 or above 2^63 - 1 milliseconds" {
		t.Error(err)
	}
	// (a time.Duration holds 106,751 days)
	found, err = promql.Reaches("max_over_time(a[106751d:1d] offset 1d)", times)
	if !errors.Is(err, promql.ErrTimeOverflow) || err.Error() != "a time.Duration does not hold the reach of `a`" || found != nil {
		t.Error(found, err)
	}
	if _, err := promql.Reaches("a", promql.EvalTimes{Lookback: -1}); !errors.Is(err, promql.ErrDuration) {
		t.Error(err)
	}
}

func TestMayRead(t *testing.T) {
	up := map[string]string{"__name__": "up", "job": "é<&>\"\n", "team": ""}
	rows := []struct {
		query  string
		labels map[string]string
		wanted bool
	}{
		{"up{job='é<&>\"\\n'}", up, true},
		{"up{job='web'}", up, false},
		{"max_over_time(up{team='',other=~'x?'}[5m:])", up, true},
		{"down + on () {__name__=~'d.*'}", up, false},
		{"info(down)", map[string]string{"__name__": "target_info"}, true},
		{"{a!='b',c='d'}", map[string]string{"c": "d"}, true},
		{"up", nil, false},
		{"up", map[string]string{}, false},
	}
	for _, row := range rows {
		if may, err := promql.MayRead(row.query, row.labels); err != nil || may != row.wanted {
			t.Error(row.query, may, err)
		}
	}
	if _, err := promql.MayRead("1 +", up); !errors.As(err, new(*promql.QueryError)) {
		t.Error(err)
	}
	for _, labels := range []map[string]string{{"a": "\xff"}, {"\xff": "a"}} {
		if _, err := promql.MayRead("up", labels); !errors.Is(err, promql.ErrNotUTF8) {
			t.Error(err)
		}
	}
}
