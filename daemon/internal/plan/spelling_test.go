package plan

import (
	"bytes"
	"testing"

	"github.com/moby/buildkit/solver/pb"
)

// The daemon's own reading has fewer bounds than llbm's, so llbm is shown a long definition before it is read here.
func TestALongDefinitionIsNotReadBeforeItIsShown(t *testing.T) {
	// An op that names its kind before its inputs, which BuildKit's library would not write.
	odd := []byte{0x1a, 0x09, 0x0a, 0x07, 'l', 'o', 'c', 'a', 'l', ':', 'a', 0x0a, 0x00}
	short := &pb.Definition{Def: [][]byte{odd}}
	long := &pb.Definition{Def: [][]byte{bytes.Repeat(odd, mostUnseen/len(odd)+1)}}
	if made := Respelled(short); made == short || bytes.Equal(made.Def[0], odd) {
		t.Error("a short one is as it was")
	}
	if Respelled(long) != long {
		t.Error("a long one was read")
	}
}
