package filter

import (
	"encoding/json"
	"sort"
)

// about is what a target says of a metric.
type about struct {
	Type string `json:"type"`
	Help string `json:"help"`
	Unit string `json:"unit"`
}

// NoMetadata returns an answer of /api/v1/metadata that has none.
func NoMetadata() []byte {
	return []byte(`{"data":{},"status":"success"}`)
}

// Metadata returns an answer of /api/v1/targets/metadata, of one metric or of all, in the form of /api/v1/metadata: of the targets that have
// the tenant's label. There are so many metrics at most, unless the limit is below 0, and so many texts for each, unless it is 0.
func Metadata(answer []byte, metric string, limit, limitPerMetric int, allows Allows) ([]byte, error) {
	var read struct {
		Status string
		Data   []struct {
			Target map[string]string
			Metric string
			about
		}
	}
	if err := json.Unmarshal(answer, &read); err != nil {
		return nil, err
	}
	if read.Status != "success" {
		return nil, errNoSuccess
	}
	found := map[string][]about{}
	for _, it := range read.Data {
		if !allows(it.Target) {
			continue
		}
		// (of one metric, the answer does not say which)
		name := it.Metric
		if name == "" {
			name = metric
		}
		if !has(found[name], it.about) && (limitPerMetric <= 0 || len(found[name]) < limitPerMetric) {
			found[name] = append(found[name], it.about)
		}
	}
	return json.Marshal(map[string]any{"status": "success", "data": first(found, limit)})
}

func has(all []about, one about) bool {
	for _, it := range all {
		if it == one {
			return true
		}
	}
	return false
}

// first returns so many metrics, the first by their names, or all where the limit is below 0.
func first(found map[string][]about, limit int) map[string][]about {
	if limit < 0 || len(found) <= limit {
		return found
	}
	names := make([]string, 0, len(found))
	for name := range found {
		names = append(names, name)
	}
	sort.Strings(names)
	kept := map[string][]about{}
	for _, name := range names[:limit] {
		kept[name] = found[name]
	}
	return kept
}
