package llbmtest

import (
	"context"
	"fmt"
	"io/fs"
	"os"
	"path/filepath"
	"syscall"
	"testing"

	"github.com/distribution/reference"
	"github.com/tonistiigi/fsutil"
	llbm "llbm.example/llbm/bindings/go"
)

// A Source is a tree for a local source, or in the place of an image.
type Source struct {
	name    string
	isImage bool
	isMade  bool // of Files: modes don't hang on the user's mask
	folder  func(t testing.TB) string
}

// Dir is a directory as the local source of a name. As from a client of BuildKit, the source's filters select what is in it, and
// all is owned by 0:0.
func Dir(name, folder string) Source {
	return Source{name: name, folder: func(testing.TB) string { return folder }}
}

// Files is a local source with these files, by their paths, each of mode 0644. The source's filters select among them.
func Files(name string, files map[string]string) Source {
	return Source{name: name, isMade: true, folder: func(t testing.TB) string {
		t.Helper()
		folder := t.TempDir()
		for path, content := range files {
			at := filepath.Join(folder, filepath.FromSlash(path))
			if err := os.MkdirAll(filepath.Dir(at), 0o777); err != nil {
				t.Fatal(err)
			}
			if err := os.WriteFile(at, []byte(content), 0o666); err != nil {
				t.Fatal(err)
			}
		}
		return folder
	}}
}

// Image is a directory in the place of an image, such as alpine:3.19. All in it is owned by 0:0.
func Image(ref, folder string) Source {
	return Source{name: ref, isImage: true, folder: func(testing.TB) string { return folder }}
}

// what names a source for a person.
func (s Source) what() string {
	if s.isImage {
		return "image " + s.name
	}
	return "local source " + s.name
}

// nameOfImage returns the name and the tag of an image, without a digest.
func nameOfImage(ref string) (string, error) {
	named, err := reference.ParseNormalizedNamed(ref)
	if err != nil {
		return "", fmt.Errorf("image %s: %w", ref, err)
	}
	tag := "latest"
	if tagged, ok := named.(reference.Tagged); ok {
		tag = tagged.Tag()
	} else if digested, ok := named.(reference.Digested); ok {
		tag = digested.Digest().String()
	}
	return named.Name() + ":" + tag, nil
}

// tree returns the tree of what filters select of a source.
func (s Source) tree(t testing.TB, filters *fsutil.FilterOpt) (*llbm.Tree, error) {
	t.Helper()
	folder := s.folder(t)
	root, err := fsutil.NewFS(folder)
	if err != nil {
		return nil, err
	}
	if root, err = fsutil.NewFilterFS(root, filters); err != nil {
		return nil, err
	}
	var entries []llbm.Entry
	err = root.Walk(context.Background(), "/", func(path string, found fs.DirEntry, err error) error {
		if err != nil {
			return err
		}
		one, err := entryOf(filepath.Join(folder, path), "/"+filepath.ToSlash(path))
		if s.isMade {
			one.Mode = map[bool]uint32{true: 0o755, false: 0o644}[one.Dir]
		}
		entries = append(entries, one)
		return err
	})
	if err != nil {
		return nil, err
	}
	return llbm.NewTree(entries...)
}

// entryOf returns the entry of a file or a directory.
func entryOf(place, path string) (llbm.Entry, error) {
	info, err := os.Lstat(place)
	if err != nil {
		return llbm.Entry{}, err
	}
	one := llbm.Entry{Path: path, Dir: info.IsDir(), Mode: info.Sys().(*syscall.Stat_t).Mode & 0o7777}
	switch {
	case info.Mode().IsRegular():
		one.Content, err = os.ReadFile(place)
	case !info.IsDir():
		return one, fmt.Errorf("a tree has only directories and files: %s is a %s", place, kindOf(info.Mode()))
	}
	return one, err
}

func kindOf(mode fs.FileMode) string {
	switch mode.Type() {
	case fs.ModeSymlink:
		return "symbolic link"
	case fs.ModeNamedPipe:
		return "pipe"
	case fs.ModeSocket:
		return "socket"
	}
	return "special file"
}
