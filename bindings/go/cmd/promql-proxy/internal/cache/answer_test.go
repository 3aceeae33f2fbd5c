package cache

import (
	"math/rand"
	"strconv"
	"strings"
	"testing"
)

const (
	head = `{"status":"success","data":{"resultType":"matrix","result":[`
	tail = `]}}`
)

// What Prometheus writes: no series, series in order, names that sort before and after __name__, characters that are escaped, histograms.
var answersKept = []string{
	head + tail,
	head + `{"metric":{},"values":[[1,"1"]]}` + tail,
	head + `{"metric":{"__name__":"a"},"values":[[1.5,"NaN"],[2.5,"+Inf"]]},{"metric":{"__name__":"a","b":"c"},"values":[[1.5,"1e+06"]]}` + tail,
	head + `{"metric":{"A":"z","__name__":"b"},"values":[[1,"1"]]},{"metric":{"__name__":"a"},"values":[[1,"1"]]}` + tail,
	head + `{"metric":{"a":"\u003c"},"values":[[1,"1"]]},{"metric":{"a":"A\"}],"},"values":[[1,"1"]]},{"metric":{"a":"é"},"values":[[1,"1"]]}` + tail,
	head + `{"metric":{"a":"b"},"values":[[1,"1"]],"histograms":[[2,{"count":"1","sum":"2","buckets":[[0,"1","2","3"]]}]]}` + tail,
	head + `{"metric":{"a":"b"},"histograms":[[2,{"count":"1"}]]},{"metric":{"a":"b","c":"d"},"values":[[1,"1"]]}` + tail,
}

var answersNotKept = []string{
	"",
	"null",
	`{"status":"error","errorType":"bad_data","error":"no"}`,
	`{"status":"success","data":{"resultType":"vector","result":[]}}`,
	`{"status":"success","data":{"resultType":"matrix","result":null}}`,
	`{"status":"success","data":{"resultType":"matrix","result":[]},"warnings":["no"]}`,
	`{"status":"success","data":{"resultType":"matrix","result":[]},"infos":["no"]}`,
	`{"status":"success","isPartial":true,"data":{"resultType":"matrix","result":[]}}`,
	`{"status":"success","data":{"resultType":"matrix","result":[],"stats":{}}}`,
	head + tail + "\n",
	head + " " + tail,
	head + `{"metric":{"a":"b"},"values":[[1,"1"]],"dropped":1}` + tail,
	head + `{"values":[[1,"1"]],"metric":{"a":"b"}}` + tail,
	head + `{"metric":{"a":"b"},"values":[[1,"1"]],"values":[[2,"1"]]}` + tail,
	head + `{"metric":{"a":"c"},"values":[[1,"1"]]},{"metric":{"a":"b"},"values":[[1,"1"]]}` + tail,
	head + `{"metric":{"a":"b"},"values":[[1,"1"]]},{"metric":{"a":"b"},"values":[[2,"1"]]}` + tail,
	head + `{"metric":{"a":"b"},"values":[[1,"1"]]},{"metric":{"a":"\u0062"},"values":[[2,"1"]]}` + tail,
	head + `{"metric":["a"],"values":[[1,"1"]]},{"metric":["b"],"values":[[1,"1"]]}` + tail,
	head + `{"metric":{"a":"b"},"values":{}}` + tail,
}

func TestAnswers(t *testing.T) {
	for _, text := range answersKept {
		read, err := readAnswer([]byte(text))
		if err != nil || string(join([]matrix{read}).write()) != text {
			t.Errorf("%s: %v", text, err)
		}
		for i := range text {
			if _, err := readAnswer([]byte(text[:i])); err == nil {
				t.Errorf("%s is half an answer", text[:i])
			}
		}
	}
	for _, text := range answersNotKept {
		if read, err := readAnswer([]byte(text)); err == nil {
			t.Errorf("%s: %v", text, read)
		}
	}
}

// madeAnswer returns an answer with the points of these times, of series some of which have gaps.
func madeAnswer(first, last, step int64) string {
	var all []string
	for i, labels := range []string{`"A":"z"`, `"__name__":"\u003c"`, `"__name__":"b"`, `"a":"A\""`, `"a":"é"`} {
		var values, histograms []string
		for at := first; at <= last; at += step {
			n := at / step * int64(i+1)
			switch point := "[" + seconds(at) + `,"` + strconv.FormatInt(n, 10) + `"]`; {
			case at/100%int64(i+2) == 1:
			case i == 3 && n%5 == 0:
				histograms = append(histograms, strings.NewReplacer(`,`, `,{"count":`, `]`, `}]`).Replace(point))
			default:
				values = append(values, point)
			}
		}
		text := `{"metric":{` + labels + "}"
		if values != nil {
			text += `,"values":[` + strings.Join(values, ",") + "]"
		}
		if histograms != nil {
			text += `,"histograms":[` + strings.Join(histograms, ",") + "]"
		}
		if values != nil || histograms != nil {
			all = append(all, text+"}")
		}
	}
	return head + strings.Join(all, ",") + tail
}

// Answers to parts, joined, are the answer to the whole, whatever the parts are.
func TestJoining(t *testing.T) {
	rng := rand.New(rand.NewSource(1))
	for n := 0; n < 300; n++ {
		first, step := rng.Int63n(500), rng.Int63n(40)+1
		times := grid{first, first + rng.Int63n(1500), step}
		var answers []matrix
		parts := times.split(rng.Int63n(300) + 30)
		for _, it := range parts {
			read, err := readAnswer([]byte(madeAnswer(it.first, it.last, step)))
			if err != nil {
				t.Fatal(err, madeAnswer(it.first, it.last, step))
			}
			answers = append(answers, read)
		}
		wanted := madeAnswer(first, parts[len(parts)-1].last, step)
		// The parts are read, and not written, so they can be joined again.
		for again := 0; again < 2; again++ {
			if found := string(join(answers).write()); found != wanted {
				t.Fatalf("%v\n%s\n%s", times, found, wanted)
			}
		}
	}
	if found := string(join(nil).write()); found != head+tail {
		t.Error(found)
	}
}
