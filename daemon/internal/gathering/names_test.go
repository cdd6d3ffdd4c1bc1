package gathering

import (
	"bytes"
	"encoding/hex"
	"os"
	"regexp"
	"strings"
	"testing"

	"github.com/moby/buildkit/solver/pb"
	"llbm/daemon/internal/builds"
	"llbm/daemon/internal/sources"
)

// The tests of the proved library, which have definitions before and after their local sources were renamed.
const stories = "../../../crates/llb_examples/src/two_definitions.rt"

// definitionIn returns the definition that a constant of the stories has as hexadecimal digits.
func definitionIn(t *testing.T, text, name string) *pb.Definition {
	t.Helper()
	_, rest, found := strings.Cut(text, "const "+name+": &str = concat!(")
	if !found {
		t.Fatalf("%s: no constant %s", stories, name)
	}
	literals, _, _ := strings.Cut(rest, ");")
	digits := strings.Join(regexp.MustCompile(`[0-9a-f]{2,}`).FindAllString(literals, -1), "")
	data, err := hex.DecodeString(digits)
	if err != nil {
		t.Fatal(err)
	}
	def := &pb.Definition{}
	if err := def.Unmarshal(data); err != nil {
		t.Fatal(err)
	}
	return def
}

// A definition whose source has a name that is no word becomes what `load_renamed` takes for the same definition renamed.
func TestRenamedSourcesAreThoseOfTheStories(t *testing.T) {
	text, err := os.ReadFile(stories)
	if err != nil {
		t.Skip("the repository's crates are not there")
	}
	def, wanted := definitionIn(t, string(text), "BEFORE_RENAMING"), definitionIn(t, string(text), "RENAMED_BY_DAEMON")
	request, err := sources.RequestOf(&pb.SourceOp{Identifier: sources.Scheme + "a=b"})
	if err != nil {
		t.Fatal(err)
	}
	one := &Input{Given: "source-0", request: request, key: request.Key("")}
	in := &Inputs{byKey: map[sources.Key]*Input{one.key: one}, build: &builds.Build{}, renamed: true}
	renamed, err := in.rename(def)
	if err != nil {
		t.Fatal(err)
	}
	if len(renamed.Def) != len(wanted.Def) {
		t.Fatalf("%d entries, not %d", len(renamed.Def), len(wanted.Def))
	}
	for k, entry := range renamed.Def {
		if !bytes.Equal(entry, wanted.Def[k]) {
			t.Errorf("entry %d: %x, not %x", k, entry, wanted.Def[k])
		}
	}
}
