// Package filter keeps what a tenant may see of the rules and the alerts of a Prometheus.
package filter

import (
	"encoding/json"
	"errors"
	"fmt"
)

// Allows says whether a tenant may see what has these labels.
type Allows func(labels map[string]string) bool

var errNoSuccess = errors.New("its status is not success")

// object is a JSON object whose members are read one by one.
type object map[string]json.RawMessage

// The members of a group of rules that pass beside its rules. What a later Prometheus adds to one may be about all of its rules.
func groupMembers() []string {
	return []string{"name", "file", "interval", "limit", "evaluationTime", "lastEvaluation"}
}

// Rules returns an answer of /api/v1/rules with the rules that are selected, the alerts of these that the tenant may see, and the groups
// that have such a rule.
func Rules(answer []byte, selects, allows Allows) ([]byte, error) {
	groups, err := listIn(answer, "groups")
	if err != nil {
		return nil, err
	}
	kept := []object{}
	for _, group := range groups {
		rules, err := rulesOf(group, selects, allows)
		if err != nil {
			return nil, err
		}
		if len(rules) != 0 {
			if group, err = with(only(group, groupMembers()), "rules", rules); err != nil {
				return nil, err
			}
			kept = append(kept, group)
		}
	}
	return success("groups", kept)
}

// Alerts returns an answer of /api/v1/alerts with the alerts that have the tenant's label.
func Alerts(answer []byte, allows Allows) ([]byte, error) {
	alerts, err := listIn(answer, "alerts")
	if err != nil {
		return nil, err
	}
	kept, err := allowed(alerts, allows)
	if err != nil {
		return nil, err
	}
	return success("alerts", kept)
}

// rulesOf returns the rules of a group that are selected, with the alerts that the tenant may see.
func rulesOf(group object, selects, allows Allows) ([]object, error) {
	rules, err := list(group, "rules")
	if err != nil {
		return nil, err
	}
	kept, err := allowed(rules, selects)
	if err != nil {
		return nil, err
	}
	for i, rule := range kept {
		if _, has := rule["alerts"]; !has {
			continue
		}
		alerts, err := list(rule, "alerts")
		if err != nil {
			return nil, err
		}
		if alerts, err = allowed(alerts, allows); err != nil {
			return nil, err
		}
		if kept[i], err = with(rule, "alerts", alerts); err != nil {
			return nil, err
		}
	}
	return kept, nil
}

// allowed returns those of the rules or alerts that have the tenant's label.
func allowed(all []object, allows Allows) ([]object, error) {
	kept := []object{}
	for _, it := range all {
		var labels map[string]string
		if raw, has := it["labels"]; has {
			if err := json.Unmarshal(raw, &labels); err != nil {
				return nil, fmt.Errorf("labels: %w", err)
			}
		}
		if allows(labels) {
			kept = append(kept, it)
		}
	}
	return kept, nil
}

// listIn returns the list of objects with this name in the data of an answer that is a success.
func listIn(answer []byte, name string) ([]object, error) {
	var read struct {
		Status string
		Data   object
	}
	if err := json.Unmarshal(answer, &read); err != nil {
		return nil, err
	}
	if read.Status != "success" {
		return nil, errNoSuccess
	}
	return list(read.Data, name)
}

// list returns a member that is a list of objects.
func list(from object, name string) ([]object, error) {
	raw, has := from[name]
	if !has {
		return nil, fmt.Errorf("there is no %s", name)
	}
	var found []object
	if err := json.Unmarshal(raw, &found); err != nil {
		return nil, fmt.Errorf("%s: %w", name, err)
	}
	return found, nil
}

func only(from object, names []string) object {
	kept := object{}
	for _, name := range names {
		if value, has := from[name]; has {
			kept[name] = value
		}
	}
	return kept
}

// with sets a member to a list.
func with(to object, name string, values []object) (object, error) {
	text, err := json.Marshal(values)
	if err != nil {
		return nil, err
	}
	to[name] = text
	return to, nil
}

func success(name string, values []object) ([]byte, error) {
	return json.Marshal(map[string]any{"status": "success", "data": map[string]any{name: values}})
}
