package rules

import (
	"go/ast"
	"go/parser"
	"go/token"
	"slices"
	"testing"
)

// constants returns the names of the rules, in their order, as the code has them.
func constants(t *testing.T) []string {
	t.Helper()
	file, err := parser.ParseFile(token.NewFileSet(), "rules.go", nil, 0)
	if err != nil {
		t.Fatal(err)
	}
	var found []string
	for _, declared := range file.Decls {
		one, ok := declared.(*ast.GenDecl)
		if !ok || one.Tok != token.CONST || one.Specs[0].(*ast.ValueSpec).Names[0].Name != "Mode" {
			continue
		}
		for _, spec := range one.Specs {
			found = append(found, spec.(*ast.ValueSpec).Names[0].Name)
		}
	}
	return found
}

func TestTheTableHasEachRuleAtItsPlace(t *testing.T) {
	names := constants(t)
	if len(names) != int(numberOfRules)+1 {
		t.Fatalf("%d constants for %d rules", len(names), numberOfRules)
	}
	for rule := range numberOfRules {
		if rule.String() != names[rule] {
			t.Errorf("%s is at the place of %s", rule, names[rule])
		}
	}
}

func TestEachTextSaysWhatToDo(t *testing.T) {
	for _, text := range slices.Concat(Texts(), Others()) {
		if (text.Adopt == "-") != (text.Advice != "") || text.Case == "" || text.BuildKit == "" || text.LLBM == "" {
			t.Errorf("%s", text.Sentences())
		}
	}
}
