package filter

import (
	"encoding/json"
	"errors"
)

// ErrOther says that an answer is about what the tenant may not see.
var ErrOther = errors.New("it is of another tenant")

// The members of an alert of an Alertmanager, of its status, and of a group of alerts that pass.
func alertMembers() []string {
	return []string{"annotations", "endsAt", "fingerprint", "generatorURL", "labels", "receivers", "startsAt", "status", "updatedAt"}
}

func statusMembers() []string {
	return []string{"inhibitedBy", "mutedBy", "silencedBy", "state"}
}

func alertGroupMembers() []string {
	return []string{"labels", "receiver"}
}

// Matcher is a matcher of a silence. IsEqual is true where it is not there.
type Matcher struct {
	Name    string `json:"name"`
	Value   string `json:"value"`
	IsRegex bool   `json:"isRegex"`
	IsEqual *bool  `json:"isEqual,omitempty"`
}

// IsExact says whether a matcher has one value that it matches.
func (m Matcher) IsExact() bool {
	return !m.IsRegex && (m.IsEqual == nil || *m.IsEqual)
}

// ReceivedAlerts returns an answer of /api/v2/alerts with the alerts that the tenant may see.
func ReceivedAlerts(answer []byte, allows Allows) ([]byte, error) {
	alerts, err := objects(answer)
	if err != nil {
		return nil, err
	}
	if alerts, err = received(alerts, allows); err != nil {
		return nil, err
	}
	return json.Marshal(alerts)
}

// AlertGroups returns an answer of /api/v2/alerts/groups with the alerts that the tenant may see, and the groups that have one.
func AlertGroups(answer []byte, allows Allows) ([]byte, error) {
	groups, err := objects(answer)
	if err != nil {
		return nil, err
	}
	kept := []object{}
	for _, group := range groups {
		alerts, err := list(group, "alerts")
		if err != nil {
			return nil, err
		}
		if alerts, err = received(alerts, allows); err != nil {
			return nil, err
		}
		if len(alerts) == 0 {
			continue
		}
		if group, err = with(only(group, alertGroupMembers()), "alerts", alerts); err != nil {
			return nil, err
		}
		kept = append(kept, group)
	}
	return json.Marshal(kept)
}

// received returns the alerts that the tenant may see. What inhibits one is told where it is among them.
func received(alerts []object, allows Allows) ([]object, error) {
	kept, err := allowed(alerts, allows)
	if err != nil {
		return nil, err
	}
	seen := map[string]bool{}
	for _, alert := range kept {
		seen[string(alert["fingerprint"])] = true
	}
	for i, alert := range kept {
		kept[i] = only(alert, alertMembers())
		if err := dropInhibitors(kept[i], seen); err != nil {
			return nil, err
		}
	}
	return kept, nil
}

// dropInhibitors leaves of the status of an alert what passes, and of the alerts that inhibit it those that are seen.
func dropInhibitors(alert object, seen map[string]bool) error {
	raw, has := alert["status"]
	if !has {
		return nil
	}
	var status object
	if err := json.Unmarshal(raw, &status); err != nil {
		return err
	}
	var inhibitors []json.RawMessage
	if raw, has := status["inhibitedBy"]; has {
		if err := json.Unmarshal(raw, &inhibitors); err != nil {
			return err
		}
	}
	kept := []json.RawMessage{}
	for _, inhibitor := range inhibitors {
		if seen[string(inhibitor)] {
			kept = append(kept, inhibitor)
		}
	}
	text, err := json.Marshal(kept)
	if err != nil {
		return err
	}
	status = only(status, statusMembers())
	status["inhibitedBy"] = text
	alert["status"], err = json.Marshal(status)
	return err
}

// Silences returns an answer of /api/v2/silences with the silences that are the tenant's.
func Silences(answer []byte, owns func([]Matcher) bool) ([]byte, error) {
	silences, err := objects(answer)
	if err != nil {
		return nil, err
	}
	kept := []object{}
	for _, silence := range silences {
		is, err := isOwn(silence, owns)
		if err != nil {
			return nil, err
		}
		if is {
			kept = append(kept, silence)
		}
	}
	return json.Marshal(kept)
}

// Silence returns an answer of /api/v2/silence, or ErrOther where that is not the tenant's.
func Silence(answer []byte, owns func([]Matcher) bool) ([]byte, error) {
	var silence object
	if err := json.Unmarshal(answer, &silence); err != nil {
		return nil, err
	}
	is, err := isOwn(silence, owns)
	if err == nil && !is {
		err = ErrOther
	}
	return answer, err
}

func isOwn(silence object, owns func([]Matcher) bool) (bool, error) {
	var matchers []Matcher
	if raw, has := silence["matchers"]; has {
		if err := json.Unmarshal(raw, &matchers); err != nil {
			return false, err
		}
	}
	return owns(matchers), nil
}

func objects(answer []byte) ([]object, error) {
	var found []object
	err := json.Unmarshal(answer, &found)
	return found, err
}
