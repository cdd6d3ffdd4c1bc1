package main

import (
	"context"
	"fmt"
	"io"

	"llbm/daemon/internal/notes"
	"llbm/daemon/internal/rules"
)

func init() { words["texts"] = printTexts }

// A text is what is said of a name, with all of it in one sentence after another.
type text struct {
	Kind     string `json:"kind"` // rule, other, field, metadata, attribute
	Name     string `json:"name"`
	Where    string `json:"where"` // when it matters: the case, or the field
	BuildKit string `json:"buildkit"`
	LLBM     string `json:"llbm"`
	Adopt    string `json:"adopt"` // what adopt --like-buildkit does about it, - for nothing
	Advice   string `json:"advice,omitempty"`
	Words    string `json:"words"`
}

// printTexts prints what is said of each rule, other note, field and attribute. A name of fields can have several lines.
func printTexts(_ context.Context, given []string, _ io.Reader, out io.Writer) error {
	if err := noWords(given); err != nil {
		return err
	}
	table, err := notes.BuiltIn()
	if err != nil {
		return err
	}
	var all []text
	for _, one := range table.Described() {
		all = append(all, text{
			Kind: one.Kind, Name: one.Name, Where: one.Where, BuildKit: one.Effect, LLBM: "no effect", Adopt: "-", Advice: one.Advice,
			Words: fmt.Sprintf("%s: %s. In BuildKit: %s. In llbm: no effect. What to do: %s", one.Name, one.Where, one.Effect, one.Advice),
		})
	}
	of := func(kind string, one rules.Text) text {
		return text{kind, one.Name, one.Case, one.BuildKit, one.LLBM, one.Adopt, one.Advice, one.Sentences()}
	}
	for _, one := range rules.Texts() {
		all = append(all, of("rule", one))
	}
	for _, one := range rules.Others() {
		all = append(all, of("other", one))
	}
	return printLines(out, all)
}
