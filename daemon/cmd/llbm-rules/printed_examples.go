package main

import (
	"context"
	"encoding/json"
	"io"

	"llbm/daemon/internal/examples"
)

func init() { words["examples"] = printExamples }

// printExamples prints the least examples of the rules: definitions in base64, and trees as texts.
func printExamples(_ context.Context, given []string, _ io.Reader, out io.Writer) error {
	if err := noWords(given); err != nil {
		return err
	}
	found, err := examples.All()
	if err != nil {
		return err
	}
	return printLines(out, found)
}

// noWords refuses words after one that takes none.
func noWords(given []string) error {
	if len(given) > 0 {
		return refuse("a word is unexpected: %q", given[0])
	}
	return nil
}

// printLines prints a line of JSON for each.
func printLines[T any](out io.Writer, all []T) error {
	to := json.NewEncoder(out)
	to.SetEscapeHTML(false)
	for i := range all {
		if err := to.Encode(&all[i]); err != nil {
			return err
		}
	}
	return nil
}
