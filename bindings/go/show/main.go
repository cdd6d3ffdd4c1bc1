//go:build ignore

// Reads the definition on standard input with BuildKit's message types and prints a line for each row with its inputs;
// the last line is the terminal's. It does for each entry what `llbm show` does, without its checks. `dev/dev measure`
// builds it, and runs it beside `show`.
package main

import (
	"bufio"
	"crypto/sha256"
	"fmt"
	"io"
	"os"

	"github.com/moby/buildkit/solver/pb"
)

func check(err error) {
	if err != nil {
		fmt.Fprintln(os.Stderr, err)
		os.Exit(1)
	}
}

func main() {
	data, err := io.ReadAll(os.Stdin)
	check(err)
	var definition pb.Definition
	check(definition.Unmarshal(data))
	ops := make([]pb.Op, len(definition.Def))
	rows := make(map[string]int, len(ops))
	for row, entry := range definition.Def {
		check(ops[row].Unmarshal(entry))
		_, err := ops[row].Marshal()
		check(err)
		rows[fmt.Sprintf("sha256:%x", sha256.Sum256(entry))] = row
	}
	out := bufio.NewWriter(os.Stdout)
	for row := range ops {
		fmt.Fprintf(out, "%d inputs", row)
		for _, input := range ops[row].Inputs {
			named, found := rows[string(input.Digest)]
			if !found {
				check(fmt.Errorf("row %d: an input names no row", row))
			}
			fmt.Fprintf(out, " %d.%d", named, input.Index)
		}
		fmt.Fprintln(out)
	}
	check(out.Flush())
}
