package main

import (
	"context"
	"io"
	"regexp"
	"slices"
	"strings"

	"llbm/daemon/internal/notes"
	"llbm/daemon/internal/rules"
)

func init() { words["page"] = printPage }

// ofTable is a table of the page, with the line before it that names it.
var ofTable = regexp.MustCompile(`(<!-- table (\w+) -->\n\n)(?:\|.*\n)*`)

// printPage prints a page with its tables as they should be; the text between them is the page's own.
func printPage(_ context.Context, given []string, in io.Reader, out io.Writer) error {
	if err := noWords(given); err != nil {
		return err
	}
	page, err := io.ReadAll(in)
	if err != nil {
		return err
	}
	tables, err := tablesOfPage()
	if err != nil {
		return err
	}
	made := ofTable.ReplaceAllFunc(page, func(found []byte) []byte {
		parts := ofTable.FindSubmatch(found)
		return append(slices.Clone(parts[1]), tables[string(parts[2])]...)
	})
	_, err = out.Write(made)
	return err
}

// tablesOfPage returns the tables by name.
func tablesOfPage() (map[string]string, error) {
	fields, err := notes.BuiltIn()
	if err != nil {
		return nil, err
	}
	return map[string]string{
		"rules":  table([]string{"Rule", "Case", "BuildKit", "llbm"}, rowsOfTexts(rules.Texts())),
		"others": table([]string{"Note", "Case", "BuildKit", "llbm"}, rowsOfTexts(rules.Others())),
		"fields": table([]string{"Note", "Where", "Effect in BuildKit"}, rowsOfFields(fields)),
	}, nil
}

func table(head []string, rows [][]string) string {
	line := make([]string, len(head))
	for i := range line {
		line[i] = "---"
	}
	var out strings.Builder
	for _, row := range append([][]string{head, line}, rows...) {
		for _, cell := range row {
			out.WriteString("| " + strings.ReplaceAll(cell, "|", `\|`) + " ")
		}
		out.WriteString("|\n")
	}
	return out.String()
}

func rowsOfTexts(of []rules.Text) [][]string {
	var rows [][]string
	for _, one := range of {
		rows = append(rows, []string{"`" + one.Name + "`", one.Case, one.BuildKit, one.LLBM})
	}
	return rows
}

func rowsOfFields(of *notes.Table) [][]string {
	var rows [][]string
	for _, one := range of.Described() {
		rows = append(rows, []string{"`" + one.Name + "`", one.Where, one.Effect})
	}
	return rows
}
