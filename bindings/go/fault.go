// Package llbm assembles, shows, runs and steps through definitions of LLB, in this process, and has the trees that come of it.
// docs/EMBEDDING.md of the repository describes each call.
package llbm

import (
	"fmt"
	"strings"
)

// A Fault is why a call failed.
type Fault struct {
	// 1: a vertex failed; 2: what was handed in is refused; 3: memory was refused; 4: no session is open.
	Status int
	// The number of the fault; 0 where the messages have none.
	Number int
	// The lines of the fault, or of the vertices that failed.
	Messages string
}

func (f *Fault) Error() string {
	return fmt.Sprintf("status %d: %s", f.Status, strings.TrimRight(f.Messages, "\n"))
}

// FaultOf returns the fault of a status of the library, or of the program, and its lines.
func FaultOf(status int, messages string) *Fault {
	number := 0
	_, _ = fmt.Sscanf(messages, "fault %d", &number)
	return &Fault{status, number, messages}
}
