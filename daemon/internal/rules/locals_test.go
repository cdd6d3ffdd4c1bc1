package rules

import (
	"context"
	"encoding/json"
	"io/fs"
	"math/rand"
	"os"
	"path/filepath"
	"slices"
	"strings"
	"testing"

	"github.com/moby/buildkit/solver/pb"
	"github.com/tonistiigi/fsutil"
	"llbm/daemon/internal/tree"
)

// filtered has the lists of filters at random.
func filtered(random *rand.Rand) map[string][]string {
	parts := strings.Split("a|b|c|ab|*|**|?|a*|*b|[a-b]|[^a]|\\*|\\a|..|.|a.b|[a|^a|[[:alpha:]]", "|")
	odd := []string{"", "!", "  ", ".", "**a", "a**", "**a**", " a ", "/a", "a/", "a/*", "b/*"}
	found := map[string][]string{}
	for _, key := range []string{pb.AttrIncludePatterns, pb.AttrExcludePatterns, pb.AttrFollowPaths} {
		for n := random.Intn(4) - 1; n > 0; n-- {
			text := odd[random.Intn(len(odd))]
			if random.Intn(8) > 0 {
				some := make([]string, 1+random.Intn(3))
				for i := range some {
					some[i] = parts[random.Intn(len(parts))]
				}
				text = strings.Repeat("!", max(0, random.Intn(5)-3)) + strings.Join(some, "/")
			}
			found[key] = append(found[key], text)
		}
	}
	return found
}

// directoryAt makes a tree of files of one byte at random in a directory, and returns it.
func directoryAt(t *testing.T, random *rand.Rand, at string) *Node {
	t.Helper()
	entries := tree.Tree{{Dir: true, Mode: 0o755}}
	var fill func(path string, depth int)
	fill = func(path string, depth int) {
		for _, name := range []string{"a", "a b", "a.b", "ab", "b", "c", "é"} {
			if random.Intn(5) > 1 {
				continue
			}
			one := tree.Entry{Path: strings.TrimPrefix(path+"/"+name, "/"), Dir: depth < 3 && random.Intn(2) == 0, Mode: 0o755}
			if !one.Dir {
				one.Content = []byte("x")
			}
			place := filepath.Join(at, one.Path)
			var err error
			if entries = append(entries, one); one.Dir {
				err = os.Mkdir(place, 0o755)
				fill(path+"/"+name, depth+1)
			} else {
				err = os.WriteFile(place, one.Content, 0o755)
			}
			if err != nil {
				t.Fatal(err)
			}
		}
	}
	fill("", 0)
	return Of(entries)
}

// emptied is what the tests have after the path of a file of which no byte is sent.
const emptied = " (empty)"

// sentOf returns the paths that the library of BuildKit's client sends of a directory.
func sentOf(at string, filters *fsutil.FilterOpt) ([]string, error) {
	root, err := fsutil.NewFS(at)
	if err == nil {
		root, err = fsutil.NewFilterFS(root, filters)
	}
	if err != nil {
		return nil, err
	}
	var found []string
	err = root.Walk(context.Background(), "/", func(path string, one fs.DirEntry, err error) error {
		if err != nil {
			return err
		}
		if !one.IsDir() {
			file, err := root.Open(path)
			if err != nil {
				path += emptied // as its Send takes the error
			} else if err := file.Close(); err != nil {
				return err
			}
		}
		found = append(found, path)
		return nil
	})
	return found, err
}

func TestFiltersSelectOfATreeWhatTheClientSendsOfADirectory(t *testing.T) {
	random := rand.New(rand.NewSource(5))
	failing, selected, empty := 0, 0, 0
	for range 20 {
		at := t.TempDir()
		n := directoryAt(t, random, at)
		for range 100 {
			given := filtered(random)
			source := &pb.SourceOp{Attrs: map[string]string{}}
			for key, list := range given {
				text, err := json.Marshal(list)
				if err != nil {
					t.Fatal(err)
				}
				source.Attrs[key] = string(text)
			}
			filters := &fsutil.FilterOpt{
				IncludePatterns: given[pb.AttrIncludePatterns], ExcludePatterns: given[pb.AttrExcludePatterns], FollowPaths: given[pb.AttrFollowPaths],
			}
			want, fault := sentOf(at, filters)
			left, err := Sent(context.Background(), source, n, All)
			if (err == nil) != (fault == nil) {
				t.Fatalf("%v: %v, and the client says %v", given, err, fault)
			}
			if failing++; err != nil {
				continue
			}
			failing--
			var got []string
			for _, one := range left.Tree()[1:] {
				if !one.Dir && len(one.Content) == 0 {
					one.Path += emptied
					empty++
				}
				got = append(got, one.Path)
			}
			slices.Sort(want)
			if slices.Sort(got); !slices.Equal(got, want) {
				t.Fatalf("%v select %q, and the client %q", given, got, want)
			}
			if len(got) > 0 {
				selected++
			}
		}
	}
	if failing < 100 || selected < 500 || empty < 10 {
		t.Error(failing, selected, empty)
	}
}
