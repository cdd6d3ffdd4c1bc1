package links

import (
	"errors"
	"math/rand"
	"os"
	"path/filepath"
	"strings"
	"testing"

	"github.com/containerd/continuity/fs"
)

// target returns the target of a link below a folder.
func target(folder string) Read {
	return func(path string) (string, error) {
		to, err := os.Readlink(filepath.Join(folder, path))
		if err != nil {
			return "", nil
		}
		return to, nil
	}
}

// randomLinks makes a folder with directories, files and links.
func randomLinks(t *testing.T, random *rand.Rand) string {
	t.Helper()
	top := t.TempDir()
	names := []string{"a", "b", "c"}
	pick := func(all ...string) string { return all[random.Intn(len(all))] }
	var fill func(folder string, depth int)
	fill = func(folder string, depth int) {
		for _, name := range names {
			place := filepath.Join(folder, name)
			var err error
			switch random.Intn(5) {
			case 0:
				if err = os.Mkdir(place, 0o700); err == nil && depth < 3 {
					fill(place, depth+1)
				}
			case 1:
				err = os.WriteFile(place, nil, 0o600)
			case 2, 3:
				to := pick("/", "", "..", ".", "../..") + pick("", "/") + pick(names...) + pick("", "/", "/..", "/a", "/b/../c", "//c", "/.")
				err = os.Symlink(to, place)
			}
			if err != nil {
				t.Fatal(err)
			}
		}
	}
	fill(top, 0)
	return top
}

func TestAPathLeadsWhereBuildKitsLibrarySays(t *testing.T) {
	random := rand.New(rand.NewSource(3))
	followed, loops, hosts := 0, 0, 0
	for range 20 {
		top := randomLinks(t, random)
		for range 30 {
			var parts []string
			for n := 1 + random.Intn(5); n > 0; n-- {
				parts = append(parts, []string{"a", "b", "c", "a", "b", "c", "..", ".", ""}[random.Intn(9)])
			}
			text := []string{"/", ""}[random.Intn(2)] + strings.Join(parts, "/")
			got, gotErr := Resolve(text, target(top))
			if errors.Is(gotErr, ErrHost) {
				hosts++
				continue
			}
			if errors.Is(gotErr, ErrTooMany) {
				loops++ // the library takes very long for some
				continue
			}
			want, err := fs.RootPath(top, text)
			if err != nil && strings.Contains(err.Error(), "not a directory") {
				continue // a file is no link here; who asks sees that it is a file
			}
			if (err == nil) != (gotErr == nil) || err == nil && filepath.Join(top, got) != want {
				t.Errorf("%q: %q %v, not %q %v", text, got, gotErr, want, err)
			}
			if got != filepath.Join("/", text) {
				followed++
			}
		}
	}
	if followed < 20 || loops < 2 || hosts > followed {
		t.Errorf("%d followed, %d loops, %d depend on the host", followed, loops, hosts)
	}
}

func TestTheLastNameIsNotFollowedAmongParents(t *testing.T) {
	at := map[string]string{"/a": "b", "/b/c": "/d"}
	read := func(path string) (string, error) { return at[path], nil }
	for text, want := range map[string]string{"/a": "/a", "/a/c": "/b/c", "a/c/": "/b/c", "/": "/", "": "/", "/a/c/x": "/d/x", "/x/..": "/"} {
		if got, err := Parents(text, read); got != want || err != nil {
			t.Errorf("%q: %q %v, not %q", text, got, err, want)
		}
	}
}
