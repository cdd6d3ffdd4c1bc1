package main

import (
	"context"
	"io"
	"slices"

	"llbm/daemon/internal/notes"
)

func init() { words["notes"] = printNotes }

// printNotes prints the notes of a definition by row: those of fields without an effect, and with --like-buildkit those of what
// BuildKit's daemon dies of and of the rules that can matter.
func printNotes(ctx context.Context, given []string, in io.Reader, out io.Writer) error {
	isLike := slices.Equal(given, []string{"--like-buildkit"})
	if len(given) > 0 && !isLike {
		return noWords(given)
	}
	data, err := io.ReadAll(in)
	if err != nil {
		return err
	}
	table, err := notes.BuiltIn()
	if err != nil {
		return err
	}
	found, err := table.Definition(ctx, data)
	if err != nil {
		return refused{err}
	}
	if !isLike {
		found = slices.DeleteFunc(found, func(one notes.RowNote) bool { return one.Kind != notes.KindField })
	}
	return printLines(out, found)
}
