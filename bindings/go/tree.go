package llbm

import (
	"bytes"
	"encoding/hex"
	"fmt"
	"io/fs"
	"path"
	"sort"
	"strings"
	"testing/fstest"
	"unicode/utf8"
)

// An Entry is a directory or a file of a tree.
type Entry struct {
	Path     string // from the root, as /a/b; the root is /
	Dir      bool
	Mode     uint32 // the permissions, the sticky bit and those of set IDs: 0 to 07777
	UID, GID uint32
	Content  []byte // of a file
}

// A Tree is a tree of files, as a run makes it. It is an fs.FS, whose fs.FileInfo.Sys is the Entry.
type Tree struct {
	entries map[string]Entry
	files   fstest.MapFS
}

// NewTree returns a tree of these entries. The root is added if it is not among them; so are directories above the others.
func NewTree(entries ...Entry) (*Tree, error) {
	t := &Tree{entries: map[string]Entry{"/": {Path: "/", Dir: true, Mode: 0o755}}}
	for _, one := range entries {
		if one.Path != path.Clean("/"+one.Path) || one.Path == "/" && !one.Dir {
			return nil, fmt.Errorf("not the path of an entry: %q", one.Path)
		}
		t.entries[one.Path] = one
	}
	for _, one := range entries {
		for above := path.Dir(one.Path); ; above = path.Dir(above) {
			if found, ok := t.entries[above]; ok && !found.Dir {
				return nil, fmt.Errorf("a file is above %s: %s", one.Path, above)
			} else if !ok {
				t.entries[above] = Entry{Path: above, Dir: true, Mode: 0o755}
			}
			if above == "/" {
				break
			}
		}
	}
	t.files = fstest.MapFS{}
	for name, one := range t.entries {
		if name = strings.TrimPrefix(name, "/"); name == "" {
			name = "."
		}
		t.files[name] = &fstest.MapFile{Data: one.Content, Mode: one.fileMode(), Sys: one}
	}
	return t, nil
}

// fileMode returns the mode of an entry as Go has it.
func (e Entry) fileMode() fs.FileMode {
	mode := fs.FileMode(e.Mode & 0o777)
	for bit, also := range map[uint32]fs.FileMode{0o4000: fs.ModeSetuid, 0o2000: fs.ModeSetgid, 0o1000: fs.ModeSticky} {
		if e.Mode&bit != 0 {
			mode |= also
		}
	}
	if e.Dir {
		mode |= fs.ModeDir
	}
	return mode
}

// ParseTree returns the tree of a text, as the program and the library print it.
func ParseTree(text string) (*Tree, error) {
	var entries []Entry
	for number, line := range strings.Split(strings.TrimSuffix(text, "\n"), "\n") {
		one, err := parseEntry(line)
		if err != nil {
			return nil, fmt.Errorf("line %d: %w: %.80q", number+1, err, line)
		}
		entries = append(entries, one)
	}
	return NewTree(entries...)
}

func parseEntry(line string) (Entry, error) {
	var one Entry
	kind, rest, _ := strings.Cut(line, " ")
	content := "-"
	var err error
	switch kind {
	case "d":
		one.Dir = true
		_, err = fmt.Sscanf(rest, "%o %d %d", &one.Mode, &one.UID, &one.GID)
	case "f":
		_, err = fmt.Sscanf(rest, "%o %d %d %s", &one.Mode, &one.UID, &one.GID, &content)
	default:
		return one, fmt.Errorf("not an entry of a tree")
	}
	if err != nil {
		return one, err
	}
	_, at, ok := strings.Cut(rest, " /")
	if !ok {
		return one, fmt.Errorf("there is no path")
	}
	one.Path = "/" + at
	if content != "-" {
		one.Content, err = hex.DecodeString(content)
	}
	return one, err
}

// At returns what is at a path, which may begin with / or not, and whether anything is there.
func (t *Tree) At(name string) (Entry, bool) {
	one, ok := t.entries[path.Clean("/"+name)]
	return one, ok
}

// Entries returns all entries in path order, name by name; the root is the first.
func (t *Tree) Entries() []Entry {
	var all []Entry
	for _, one := range t.entries {
		all = append(all, one)
	}
	// A byte that no name has comes before all others, so that what is below a directory comes next after it.
	key := func(one Entry) string { return strings.ReplaceAll(one.Path, "/", "\x00") }
	sort.Slice(all, func(i, j int) bool { return key(all[i]) < key(all[j]) })
	return all
}

// Open opens a directory or a file, by a path as fs.ValidPath wants it.
func (t *Tree) Open(name string) (fs.File, error) { return t.files.Open(name) }

// ReadFile returns the content of a file.
func (t *Tree) ReadFile(name string) ([]byte, error) { return t.files.ReadFile(name) }

// Text returns the text of the tree, which ParseTree and the library read.
func (t *Tree) Text() string {
	var out strings.Builder
	for _, one := range t.Entries() {
		if one.Dir {
			fmt.Fprintf(&out, "d %04o %d %d %s\n", one.Mode, one.UID, one.GID, one.Path)
			continue
		}
		content := "-"
		if len(one.Content) > 0 {
			content = hex.EncodeToString(one.Content)
		}
		fmt.Fprintf(&out, "f %04o %d %d %s %s\n", one.Mode, one.UID, one.GID, content, one.Path)
	}
	return out.String()
}

// mostShown is how many bytes of a content are shown to a person.
const mostShown = 200

// String returns the entry for a person: its path, mode and owner, and the content of a file.
func (e Entry) String() string {
	head := fmt.Sprintf("%s %04o %d:%d", e.Path, e.Mode, e.UID, e.GID)
	switch {
	case e.Dir:
		return head + " directory"
	case utf8.Valid(e.Content) && len(e.Content) <= mostShown:
		return fmt.Sprintf("%s %q", head, e.Content)
	}
	return fmt.Sprintf("%s %d bytes, %.40x..", head, len(e.Content), e.Content)
}

// Diff returns a line for each path at which this tree and another one differ: `-` before what is here alone, `+` before what
// the other one has, both for an entry that is changed; and nothing if they are the same.
func (t *Tree) Diff(other *Tree) string {
	var out strings.Builder
	all := map[string]Entry{}
	for name, one := range t.entries {
		all[name] = one
	}
	for name, one := range other.entries {
		all[name] = one
	}
	for _, one := range (&Tree{entries: all}).Entries() {
		here, isHere := t.entries[one.Path]
		there, isThere := other.entries[one.Path]
		if isHere && isThere && here.equals(there) {
			continue
		}
		if isHere {
			fmt.Fprintf(&out, "- %v\n", here)
		}
		if isThere {
			fmt.Fprintf(&out, "+ %v\n", there)
		}
	}
	return out.String()
}

func (e Entry) equals(other Entry) bool {
	same := e.Dir == other.Dir && e.Mode == other.Mode && e.UID == other.UID && e.GID == other.GID
	return same && bytes.Equal(e.Content, other.Content)
}
