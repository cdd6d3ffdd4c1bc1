package notes

import "google.golang.org/protobuf/encoding/protowire"

// Fields of BuildKit's messages.
const (
	sourceOp         = 3
	sourceAttributes = 2
	keyOfEntry       = 1
	valueOfEntry     = 2
	platform         = 10
	partAction       = "action"
)

// An op is of one kind, and so is an action: of these fields the last one that is set counts.
var (
	kindsOfOp     = []protowire.Number{2, 3, 4, 5, 6, 7}
	kindsOfAction = []protowire.Number{4, 5, 6, 7}
)
