package sources

import (
	"strings"
	"testing"
	"time"

	"github.com/moby/buildkit/solver/pb"
	"google.golang.org/grpc/codes"
	"google.golang.org/grpc/status"
)

// received is a source of one file with some content.
func received(t *testing.T, k *Keeper, content string) *Manifest {
	t.Helper()
	m, err := Receive(sends(map[uint32]string{0: content}, stat("a", 0o644, int64(len(content))), last), k.store, Options{})
	if err != nil {
		t.Fatal(err)
	}
	return m
}

func TestWhatIsKeptIsBounded(t *testing.T) {
	k := NewKeeper(newStore(t, 1<<20), false, time.Minute)
	for i := range 2 * mostKept {
		m := received(t, k, "abc")
		k.keep(key{name: strings.Repeat("x", i)}, "words", m)
		m.Drop()
	}
	if got := len(k.Usage(0)); got != mostKept || k.store.Used() != 3*mostKept {
		t.Error(got, k.store.Used())
	}
	// What has more in memory than all may have is not kept, and nothing else is either.
	large := received(t, k, "abc")
	large.memory = mostOfKept + 1
	k.keep(key{name: "large"}, "words", large)
	large.Drop()
	if got := len(k.Usage(0)); got != 0 || k.store.Used() != 0 || k.memory != 0 {
		t.Error(got, k.store.Used(), k.memory)
	}
}

func TestAKeptSourceHasAShortNameAndWords(t *testing.T) {
	r, err := RequestOf(&pb.SourceOp{Identifier: "local://my context", Attrs: map[string]string{
		pb.AttrIncludePatterns: `["a","b*"]`, pb.AttrExcludePatterns: `["c"]`, pb.AttrFollowPaths: `["Dockerfile"]`,
	}})
	if err != nil {
		t.Fatal(err)
	}
	if got := r.words(); got != "local source for my context, include a b*, exclude c, follow Dockerfile" {
		t.Error(got)
	}
	one, two := key{name: "my context", filters: r.filters}, key{name: "my context"}
	if a, b := one.id(), two.id(); a == b || a != one.id() || !strings.HasPrefix(a, "my context-") || len(a) != len("my context-")+12 {
		t.Error(a, b)
	}
	r.Name = strings.Repeat("\xff", 1000)
	if got := r.words(); len(got) > 2*mostOfDescription || !strings.HasSuffix(got, "..") {
		t.Error(got)
	}
}

func TestARequestThatMakesNoSenseIsRefused(t *testing.T) {
	for attr, value := range map[string]string{pb.AttrLocalDiffer: "size", pb.AttrIncludePatterns: "a"} {
		_, err := RequestOf(&pb.SourceOp{Identifier: "local://context", Attrs: map[string]string{attr: value}})
		if status.Code(err) != codes.InvalidArgument || !strings.Contains(err.Error(), attr) {
			t.Error(attr, err)
		}
	}
}

func TestWhatCanBeDoneInsteadIsSaid(t *testing.T) {
	for identifier, want := range map[string]string{
		"docker-image://docker.io/library/a:latest": "--build-context a=DIRECTORY",
		"docker-image://registry.example/a/b:1":     "--build-context registry.example/a/b:1=DIRECTORY",
		"https://a/b":                               "fetch it before the build",
		"git://a/b":                                 "fetch it before the build",
		"other":                                     "only local sources",
	} {
		if got := Instead(identifier); !strings.Contains(got, want) {
			t.Errorf("%s: %s", identifier, got)
		}
	}
}
