package standins

import (
	"encoding/json"
	"os"
	"slices"
	"strings"
	"testing"
)

// shared are the examples that the tests of llbm-tools adopt read too.
type shared struct {
	Refused map[string]string
	Fits    []example
}

// An example is a rule, the words of an execution, and the words that it runs then; they are null if the rule does not fit.
type example struct {
	rule        string
	words, made []string
}

func (e *example) UnmarshalJSON(data []byte) error {
	return json.Unmarshal(data, &[]any{&e.rule, &e.words, &e.made})
}

func read(t *testing.T) shared {
	t.Helper()
	data, err := os.ReadFile("testdata/rules.json")
	if err != nil {
		t.Fatal(err)
	}
	var s shared
	if err := json.Unmarshal(data, &s); err != nil {
		t.Fatal(err)
	}
	return s
}

func TestRulesThatAreNoneAreRefused(t *testing.T) {
	for text, want := range read(t).Refused {
		isScript := !strings.HasPrefix(want, "the new words are not a script") // else Check refuses it
		if _, err := Read([]byte(text)); (err != nil) != isScript || err != nil && err.Error() != want {
			t.Errorf("%q: %v, not %s", text, err, want)
		}
	}
	for want, data := range map[string][]byte{
		"not UTF-8": {0xff}, "more than 1048576 bytes": make([]byte, MostBytes+1),
		"more than 10000 rules": []byte(strings.Repeat("name a =>\n", mostRules+1)),
	} {
		if _, err := Read(data); err == nil || err.Error() != want {
			t.Errorf("%v, not %s", err, want)
		}
	}
}

func TestARuleFitsAnExecution(t *testing.T) {
	for _, one := range read(t).Fits {
		rules, err := Read([]byte(one.rule))
		if err != nil {
			t.Errorf("%s: %v", one.rule, err)
			continue
		}
		found := For(rules, "", "", one.words)
		if (found != nil) != (one.made != nil) || found != nil && !slices.Equal(found.Words, one.made) {
			t.Errorf("%s: %q: %v", one.rule, one.words, found)
		}
	}
	rules, err := Read([]byte("digest sha256:a => true\nname 'RUN b' => false\nwords c => rm /"))
	if err != nil {
		t.Fatal(err)
	}
	for line, one := range map[int]*Rule{
		1: For(rules, "sha256:a", "RUN b", nil), 2: For(rules, "", "RUN b", []string{"c"}), 3: For(rules, "", "", []string{"c"}),
	} {
		if one == nil || one.Line != line {
			t.Errorf("line %d: %v", line, one)
		}
	}
}
