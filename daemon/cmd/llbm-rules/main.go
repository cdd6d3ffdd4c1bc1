// The command llbm-rules has BuildKit's rules for tools and for llbmd: each of its words reads standard input, and answers with
// lines of JSON.
package main

import (
	"context"
	"errors"
	"fmt"
	"io"
	"os"
	"slices"
	"strings"
)

const (
	statusOfRefusal = 2
	statusOfFailure = 3
)

// A word is what the command does for the first argument.
type word func(ctx context.Context, words []string, in io.Reader, out io.Writer) error

// words are added by the files of this folder.
var words = map[string]word{}

// A refused is an error in what the caller gave; any other is one of reading or writing.
type refused struct{ error }

func refuse(format string, given ...any) error { return refused{fmt.Errorf(format, given...)} }

func main() { os.Exit(run(context.Background(), os.Args[1:], os.Stdin, os.Stdout, os.Stderr)) }

// run does a word, and returns the exit status.
func run(ctx context.Context, given []string, in io.Reader, out, messages io.Writer) int {
	err := dispatch(ctx, given, in, out)
	if err == nil {
		return 0
	}
	fmt.Fprintf(messages, "llbm-rules: %v\n", err)
	if one := (refused{}); errors.As(err, &one) {
		return statusOfRefusal
	}
	return statusOfFailure
}

func dispatch(ctx context.Context, given []string, in io.Reader, out io.Writer) error {
	if len(given) > 0 {
		if do, ok := words[given[0]]; ok {
			return do(ctx, given[1:], in, out)
		}
	}
	var known []string
	for name := range words {
		known = append(known, name)
	}
	slices.Sort(known)
	return refuse("the first word is one of: %s", strings.Join(known, ", "))
}
