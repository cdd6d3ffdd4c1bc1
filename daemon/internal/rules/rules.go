package rules

import (
	_ "embed" // the table
	"encoding/json"
	"fmt"
	"slices"
)

// A Rule is one by which BuildKit ends otherwise than llbm. The package examples has a least example of each.
type Rule uint8

const (
	Mode Rule = iota
	Owner
	NoOwner
	SetGroup
	MkfileOver
	MkdirOver
	MkdirPath
	Names
	Length
	PlainWildcard
	Escape
	WildcardBase
	BadPattern
	Match
	RmNoMatch
	RmBelowFile
	RmRoot
	EmptyCopy
	DestSlash
	DestDot
	SourceDot
	ParentOwner
	ContentsTarget
	NestedDirectory
	Selected
	UnusedAction
	SecondInput
	MergeInputs
	MergeNothing
	MergeLayers
	LocalRoot
	LocalOwner
	Filters
	numberOfRules
)

// Rules is a set of rules: with all of them an op is done as BuildKit does it, with none as llbm does.
type Rules uint64

const (
	None Rules = 0
	All  Rules = 1<<numberOfRules - 1 | Followed | TakesPlace
	// Followed is that symbolic links are followed, as in BuildKit. It is no rule: where llbm would not make the same, a build is
	// refused.
	Followed Rules = 1 << 63
	// TakesPlace is that an entry of an archive takes the place of what is of another kind, as in BuildKit. It is no rule either: by those of
	// llbm it fails.
	TakesPlace Rules = 1 << 62
)

func (s Rules) Has(r Rule) bool { return s>>r&1 == 1 }

// With returns the rules and one more.
func (s Rules) With(r Rule) Rules { return s | 1<<r }

// Without returns the rules but one.
func (s Rules) Without(r Rule) Rules { return s &^ (1 << r) }

// A Text says of a rule, or of another note, when it matters, what BuildKit and llbm do, and what adopting does about it: `-` if
// nothing, and then Advice is what a person can do.
type Text struct {
	Name     string `json:"name"`
	Case     string `json:"case"`
	BuildKit string `json:"buildkit"`
	LLBM     string `json:"llbm"`
	Adopt    string `json:"adopt"`
	ByTrees  bool   `json:"by_trees,omitempty"` // whether adopting makes both agree, given the trees
	Advice   string `json:"advice,omitempty"`
}

func (t Text) String() string {
	return t.Name + ": " + t.Case + ". In BuildKit: " + t.BuildKit + ". In llbm: " + t.LLBM + "."
}

// Sentences returns the text with what to do about it.
func (t Text) Sentences() string {
	todo := t.Advice
	if todo == "" {
		todo = "`llbm-tools adopt --like-buildkit` " + t.Adopt + "."
	}
	if t.ByTrees && t.Advice != "" {
		todo += " Given the trees, `llbm-tools adopt --like-buildkit` makes both agree."
	}
	return t.String() + " What to do: " + todo
}

// table has the texts of the rules, in their order, and of the notes without a rule.
//
//go:embed rules.json
var table []byte

var texts, others = readTable()

// readTable parses the table; a test reads it before anybody else can.
func readTable() ([]Text, []Text) {
	var given struct{ Rules, Others []Text }
	if err := json.Unmarshal(table, &given); err != nil || len(given.Rules) != int(numberOfRules) {
		panic(fmt.Sprintf("rules.json has %d rules, not %d: %v", len(given.Rules), numberOfRules, err))
	}
	return given.Rules, given.Others
}

// Texts returns the texts of all rules, in their order.
func Texts() []Text { return texts }

// Others returns the texts of the notes without a rule.
func Others() []Text { return others }

func (r Rule) String() string { return texts[r].Name }

// Text returns what is said of the rule.
func (r Rule) Text() Text { return texts[r] }

// TextOf returns what is said of a rule or of another note.
func TextOf(name string) Text {
	for _, one := range slices.Concat(texts, others) {
		if one.Name == name {
			return one
		}
	}
	return Text{Name: name}
}
