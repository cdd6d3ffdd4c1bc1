package main

import (
	"context"
	"errors"
	"io"

	"llbm/daemon/internal/comparison"
)

func init() { words["compare"] = compare }

// compare says where BuildKit would end otherwise, in a talk on standard input and output.
func compare(ctx context.Context, given []string, in io.Reader, out io.Writer) error {
	if len(given) > 0 {
		return refuse("compare takes no words")
	}
	err := comparison.Serve(ctx, comparison.NewTalk(in, out))
	if one := (comparison.Refused{}); errors.As(err, &one) {
		return refused{one}
	}
	return err
}
