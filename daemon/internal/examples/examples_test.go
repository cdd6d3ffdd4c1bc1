package examples_test

import (
	"context"
	"slices"
	"strings"
	"testing"

	"llbm/daemon/internal/examples"
	"llbm/daemon/internal/graph"
	"llbm/daemon/internal/notes"
	"llbm/daemon/internal/rules"
)

// all returns the examples.
func all(t *testing.T) []examples.Example {
	t.Helper()
	found, err := examples.All()
	if err != nil || len(found) == 0 {
		t.Fatal(len(found), err)
	}
	return found
}

// made returns the lines of what some rules make of an example, without the root; nil if it fails.
func made(t *testing.T, one examples.Example, like rules.Rules) []string {
	t.Helper()
	ctx := context.Background()
	_, g, err := graph.ReadBytes(one.Definition)
	if err != nil {
		t.Fatal(err)
	}
	outputs := make([][]*rules.Ref, len(g.Vertices))
	for v, it := range g.Vertices {
		var inputs []*rules.Ref
		for i, input := range it.Inputs {
			inputs = append(inputs, outputs[input][it.Op.Inputs[i].Index])
		}
		var fault error
		switch {
		case it.Op.GetSource() != nil:
			text := one.Trees[strings.TrimPrefix(it.Op.GetSource().Identifier, "local://")]
			given, err := rules.Read(ctx, strings.NewReader(text), nil)
			if err != nil {
				t.Fatal(err)
			}
			var sent *rules.Node
			if sent, fault = rules.Sent(ctx, it.Op.GetSource(), given, like); fault == nil {
				outputs[v] = []*rules.Ref{rules.Based(sent)}
			}
		case it.Op.GetFile() != nil:
			outputs[v], fault = rules.FileOp(ctx, it.Op.GetFile(), inputs, like)
		default:
			var merged *rules.Ref
			if merged, fault = rules.Merge(ctx, it.Op.GetMerge(), inputs, like); fault == nil {
				outputs[v] = []*rules.Ref{merged}
			}
		}
		if fault != nil {
			return nil
		}
	}
	var text strings.Builder
	if err := outputs[g.Result][g.Output].Tree().Write(ctx, &text); err != nil {
		t.Fatal(err)
	}
	return append([]string{}, strings.Split(strings.TrimSuffix(text.String(), "\n"), "\n")[1:]...)
}

// isSame is whether two results are equal: nil is a failure, and no lines are an empty tree.
func isSame(a, b []string) bool { return (a == nil) == (b == nil) && slices.Equal(a, b) }

func TestEachRuleHasAnExample(t *testing.T) {
	found := map[string]bool{}
	for _, one := range all(t) {
		found[one.Rule] = true
	}
	for _, text := range rules.Texts() {
		if !found[text.Name] && text.Name != rules.Length.String() { // its path would be too long for the page
			t.Errorf("%s has none", text.Name)
		}
		delete(found, text.Name)
	}
	if len(found) > 0 {
		t.Error(found)
	}
}

func TestBothSetsOfRulesMakeOfEachWhatItSays(t *testing.T) {
	for _, one := range all(t) {
		if there := made(t, one, rules.All); !isSame(there, one.BuildKit) {
			t.Errorf("%s: BuildKit's rules make %q", one.Shows, there)
		}
		if here := made(t, one, rules.None); !isSame(here, one.LLBM) {
			t.Errorf("%s: those of llbm make %q", one.Shows, here)
		}
	}
}

func TestEachDependsOnItsRule(t *testing.T) {
	names := map[string]rules.Rule{}
	for number, text := range rules.Texts() {
		names[text.Name] = rules.Rule(number)
	}
	for _, one := range all(t) {
		rule := names[one.Rule]
		if isSame(made(t, one, rules.All.Without(rule)), one.BuildKit) && isSame(made(t, one, rules.None.With(rule)), one.LLBM) {
			t.Errorf("%s: %s does not matter", one.Shows, one.Rule)
		}
	}
}

func TestEachHasANoteOfItsRule(t *testing.T) {
	table, err := notes.BuiltIn()
	if err != nil {
		t.Fatal(err)
	}
	for _, one := range all(t) {
		found, err := table.Definition(context.Background(), one.Definition)
		if err != nil || !slices.ContainsFunc(found, func(note notes.RowNote) bool { return note.Name == one.Rule }) {
			t.Errorf("%s: %v %v", one.Shows, found, err)
		}
	}
}
