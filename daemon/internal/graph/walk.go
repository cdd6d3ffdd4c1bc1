package graph

import "fmt"

type state int

const (
	unseen state = iota
	open
	done
)

// A walk does something with rows, once with each, after those that its inputs name.
type walk struct {
	rows  *rows
	do    func(row int) error
	state []state
}

func newWalk(r *rows, do func(row int) error) *walk { return &walk{r, do, make([]state, len(r.ops))} }

// to goes to a row. The stack is explicit: chains are long.
func (w *walk) to(row int) error {
	stack := []int{row}
	for len(stack) > 0 {
		k := stack[len(stack)-1]
		if w.state[k] == done {
			stack = stack[:len(stack)-1]
			continue
		}
		missing := w.missing(k)
		if len(missing) > 0 {
			if w.state[k] == open {
				return fmt.Errorf("a cycle at entry %d", k)
			}
			w.state[k] = open
			stack = append(stack, missing...)
			continue
		}
		if err := w.do(k); err != nil {
			return err
		}
		w.state[k] = done
	}
	return nil
}

// missing returns the rows that are not done of those that the inputs of a row name, the first one last.
func (w *walk) missing(k int) []int {
	var out []int
	inputs := w.rows.ops[k].Inputs
	for i := len(inputs) - 1; i >= 0; i-- {
		if row, ok := w.rows.first[inputs[i].Digest]; ok && w.state[row] != done {
			out = append(out, row)
		}
	}
	return out
}
