package main

import (
	"bufio"
	"context"
	"errors"
	"io"
	"io/fs"

	"github.com/moby/buildkit/solver/pb"
	"llbm/daemon/internal/rules"
)

func init() { words["select"] = printSelected }

// everything is printed in the place of the paths where there are no filters.
const everything = "."

// printSelected prints the paths below a directory that BuildKit's client sends of it for the local source of a name, each with a
// byte 0 after it, since paths may have any other; or `.` alone if the source has no filters.
func printSelected(ctx context.Context, given []string, in io.Reader, out io.Writer) error {
	if len(given) != 2 {
		return refuse("select takes the name of a local source and a directory")
	}
	data, err := io.ReadAll(in)
	if err != nil {
		return err
	}
	var def pb.Definition
	if err := def.Unmarshal(data); err != nil {
		return refuse("no definition: %v", err)
	}
	filters, err := rules.FiltersIn(&def, given[0])
	if err != nil {
		return refused{err}
	}
	to := bufio.NewWriter(out)
	put := func(path string) error {
		_, err := to.WriteString(path + "\x00")
		return err
	}
	if filters == nil {
		err = put(everything)
	} else {
		err = rules.SelectedBelow(ctx, given[1], filters, put)
	}
	var notSent rules.NotSent
	if errors.Is(err, fs.ErrNotExist) || errors.As(err, &notSent) {
		return refused{err}
	} else if err != nil {
		return err
	}
	return to.Flush()
}
