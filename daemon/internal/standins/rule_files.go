package standins

import (
	"fmt"
	"slices"
	"strings"
	"unicode/utf8"
)

const arrow = "=>"

// The bounds of a file of rules.
const (
	MostBytes = 1 << 20
	mostRules = 10_000
)

var kinds = []string{"digest", "name", "words", "pattern"}

// A Rule says what an execution runs: the line that it is on, what it compares, the wanted value, and the new words; without any, the
// execution keeps its words.
type Rule struct {
	Line   int
	kind   string
	wanted []string
	Words  []string
}

// A Set is what executions run in the place of their words: what rules say, and nothing if no rule names one that llbm refuses.
type Set struct {
	Rules []Rule
	Skips bool
}

// Read reads the rules of a file. Whether their new words are scripts, Check finds out.
func Read(data []byte) ([]Rule, error) {
	if len(data) > MostBytes {
		return nil, fmt.Errorf("more than %d bytes", MostBytes)
	}
	if !utf8.Valid(data) {
		return nil, fmt.Errorf("not UTF-8")
	}
	var rules []Rule
	for i, line := range strings.Split(string(data), "\n") {
		line = strings.Trim(line, " \t\r")
		if line == "" || strings.HasPrefix(line, "#") {
			continue
		}
		rule, err := ruleOf(line)
		if err != nil {
			return nil, fmt.Errorf("%w: line %d", err, i+1)
		}
		if len(rules) == mostRules {
			return nil, fmt.Errorf("more than %d rules", mostRules)
		}
		rule.Line = i + 1
		rules = append(rules, rule)
	}
	return rules, nil
}

// ruleOf returns the rule on a line.
func ruleOf(line string) (Rule, error) {
	words, err := split(line)
	if err != nil {
		return Rule{}, err
	}
	kind, rest := words[0], words[1:]
	if !slices.Contains(kinds, kind) {
		return Rule{}, fmt.Errorf("a rule begins with digest, name, words or pattern")
	}
	place := slices.Index(rest, arrow)
	if place < 0 {
		return Rule{}, fmt.Errorf("there is no %s", arrow)
	}
	rule := Rule{kind: kind, wanted: rest[:place], Words: rest[place+1:]}
	if len(rule.wanted) != 1 && kind != "words" {
		return Rule{}, fmt.Errorf("exactly one word goes between %s and %s", kind, arrow)
	}
	return rule, nil
}

// fits is whether the rule applies to an execution.
func (r *Rule) fits(digest, name string, args []string) bool {
	switch r.kind {
	case "digest":
		return r.wanted[0] == digest
	case "name":
		return r.wanted[0] == name
	case "words":
		return slices.Equal(r.wanted, args)
	}
	return isLike([]rune(r.wanted[0]), []rune(strings.Join(args, " ")))
}

// For returns the first rule that applies to an execution with a digest, a name and words, or nil.
func For(rules []Rule, digest, name string, args []string) *Rule {
	for i := range rules {
		if rules[i].fits(digest, name, args) {
			return &rules[i]
		}
	}
	return nil
}
