package main

import (
	"bytes"
	"context"
	"encoding/json"
	"os"
	"path/filepath"
	"strings"
	"testing"

	"github.com/moby/buildkit/solver/pb"
	"llbm/daemon/internal/examples"
)

// did does a word, and returns the lines that it prints; it has to end with a status.
func did(t *testing.T, status int, in []byte, given ...string) []string {
	t.Helper()
	var out, messages bytes.Buffer
	if got := run(context.Background(), given, bytes.NewReader(in), &out, &messages); got != status || (status == 0) != (messages.Len() == 0) {
		t.Fatalf("%v: status %d, %s", given, got, messages.String())
	}
	return strings.Split(strings.TrimSuffix(out.String(), "\n"), "\n")
}

func example(t *testing.T, shows string) examples.Example {
	t.Helper()
	all, err := examples.All()
	if err != nil {
		t.Fatal(err)
	}
	for _, one := range all {
		if one.Shows == shows {
			return one
		}
	}
	t.Fatalf("no example shows %s", shows)
	return examples.Example{}
}

func TestWordsAndInputsAreRefused(t *testing.T) {
	for _, given := range [][]string{{}, {"none"}, {"texts", "x"}, {"notes", "--like"}, {"page", "x"}, {"rewrite", "x"}, {"compare", "x"}} {
		did(t, statusOfRefusal, nil, given...)
	}
	for _, given := range [][]string{{"notes"}, {"rewrite"}} {
		did(t, statusOfRefusal, []byte("this is no definition"), given...)
	}
	data := example(t, "mkfile over a file").Definition
	did(t, statusOfRefusal, data, "rewrite", "p=/none/of/these")
}

func TestEachTextIsALineOfJSON(t *testing.T) {
	seen := map[string]bool{}
	for _, line := range did(t, 0, nil, "texts") {
		var one text
		if err := json.Unmarshal([]byte(line), &one); err != nil || one.Name == "" || !strings.HasPrefix(one.Words, one.Name+": ") {
			t.Fatalf("%s: %v", line, err)
		}
		seen[one.Kind] = true
	}
	if len(seen) != 5 {
		t.Error(seen)
	}
}

func TestNotesAreThoseOfFieldsUnlessMoreIsAskedFor(t *testing.T) {
	data := example(t, "mkdir with mode 1777").Definition
	if lines := did(t, 0, data, "notes"); lines[0] != "" {
		t.Error(lines)
	}
	want := `{"row":0,"name":"Mode","part":"action 0","kind":"rule"}`
	if lines := did(t, 0, data, "notes", "--like-buildkit"); lines[0] != want || len(lines) != 1 {
		t.Error(lines)
	}
}

func TestAPageGetsItsTables(t *testing.T) {
	page := "before\n\n<!-- table others -->\n\n| old |\n| --- |\n\nafter\n"
	lines := did(t, 0, []byte(page), "page")
	if lines[4] != "| Note | Case | BuildKit | llbm |" || lines[0] != "before" || lines[len(lines)-1] != "after" {
		t.Error(lines)
	}
}

func TestADefinitionIsRewrittenByItsTrees(t *testing.T) {
	one := example(t, "mkfile over a file")
	if lines := did(t, 0, one.Definition, "rewrite"); len(lines) != 1 {
		t.Error(lines)
	}
	place := filepath.Join(t.TempDir(), "tree")
	if err := os.WriteFile(place, []byte(one.Trees["p"]), 0o600); err != nil {
		t.Fatal(err)
	}
	lines := did(t, 0, one.Definition, "rewrite", "p="+place)
	var row change
	if err := json.Unmarshal([]byte(lines[0]), &row); err != nil || row.Row != 1 || len(lines) != 3 {
		t.Error(lines, err)
	}
	if !strings.Contains(lines[1], linked) || !strings.HasPrefix(lines[2], `{"definition":"`) {
		t.Error(lines)
	}
}

// localSource is a definition of one local source with attributes, for each of these.
func localSource(t *testing.T, all ...map[string]string) []byte {
	t.Helper()
	def := &pb.Definition{}
	for _, attrs := range all {
		op := &pb.Op{Op: &pb.Op_Source{Source: &pb.SourceOp{Identifier: "local://ctx", Attrs: attrs}}}
		entry, err := op.Marshal()
		if err != nil {
			t.Fatal(err)
		}
		def.Def = append(def.Def, entry)
	}
	data, err := def.Marshal()
	if err != nil {
		t.Fatal(err)
	}
	return data
}

func TestThePathsThatFiltersSelectArePrinted(t *testing.T) {
	folder := t.TempDir()
	for _, path := range []string{".git/HEAD", "a/b.go", "a/c\n.txt", "main.go"} {
		at := filepath.Join(folder, path)
		if err := os.MkdirAll(filepath.Dir(at), 0o755); err != nil {
			t.Fatal(err)
		}
		if err := os.WriteFile(at, nil, 0o644); err != nil {
			t.Fatal(err)
		}
	}
	if err := os.Symlink("a/b.go", filepath.Join(folder, "link")); err != nil {
		t.Fatal(err)
	}
	for _, one := range []struct {
		attrs map[string]string
		want  string
	}{
		{nil, "."},
		{map[string]string{pb.AttrExcludePatterns: "[]"}, "."},
		{map[string]string{pb.AttrExcludePatterns: `[".git","*.go","link"]`}, "a a/b.go a/c\n.txt"},
		{map[string]string{pb.AttrIncludePatterns: `["**/*.go"]`}, "a a/b.go main.go"},
		{map[string]string{pb.AttrFollowPaths: `["link"]`}, "a a/b.go link"},
		{map[string]string{pb.AttrIncludePatterns: `["none"]`}, ""},
	} {
		printed := strings.Join(did(t, 0, localSource(t, one.attrs), "select", "ctx", folder), "\n")
		if got := strings.ReplaceAll(strings.TrimSuffix(printed, "\x00"), "\x00", " "); got != one.want {
			t.Errorf("%v: %q, not %q", one.attrs, got, one.want)
		}
	}
	if got := did(t, 0, localSource(t, map[string]string{pb.AttrIncludePatterns: `["a"]`}), "select", "other", folder); got[0] != ".\x00" {
		t.Errorf("a source that is not there: %q", got)
	}
}

func TestFiltersThatCanNotBeAppliedAreRefused(t *testing.T) {
	folder := t.TempDir()
	one, other := map[string]string{pb.AttrIncludePatterns: `["a"]`}, map[string]string{pb.AttrIncludePatterns: `["b"]`}
	did(t, 0, localSource(t, one, one), "select", "ctx", folder)
	noList := map[string]string{pb.AttrFollowPaths: "a"}
	for _, data := range [][]byte{localSource(t, one, other), localSource(t, one, nil), localSource(t, noList), []byte("no definition")} {
		did(t, statusOfRefusal, data, "select", "ctx", folder)
	}
	did(t, statusOfRefusal, localSource(t, one), "select", "ctx", filepath.Join(folder, "none"))
	again := localSource(t, map[string]string{pb.AttrExcludePatterns: `["a","!a/b","a"]`})
	if err := os.Mkdir(filepath.Join(folder, "a"), 0o755); err != nil {
		t.Fatal(err)
	}
	for text, status := range map[string]int{"": 0, "x": statusOfRefusal} {
		if err := os.WriteFile(filepath.Join(folder, "a", "b"), []byte(text), 0o644); err != nil {
			t.Fatal(err)
		}
		did(t, status, again, "select", "ctx", folder)
	}
	did(t, statusOfRefusal, localSource(t, one), "select", "ctx")
}
