package tree

import (
	"fmt"
	"math/rand"
	"sort"
	"strings"
	"testing"
)

// treeOf makes a tree of words: a path that ends with a slash is a directory's, and a file has its content after an equals sign.
func treeOf(words ...string) Tree {
	t := Empty()
	for _, word := range words {
		path, content, isFile := strings.Cut(word, "=")
		e := Entry{Path: strings.TrimSuffix(path, "/"), Dir: !isFile, Mode: 0o755, Content: []byte(content)}
		if e.Dir {
			e.Content = nil
		}
		t = append(t, e)
	}
	sort.Slice(t, func(i, j int) bool { return Compare(t[i].Path, t[j].Path) < 0 })
	return t
}

func shownChanges(all []Change) string {
	var words []string
	for _, one := range all {
		switch {
		case one.Removed:
			words = append(words, "-"+one.Path)
		case one.Dir:
			words = append(words, one.Path+"/")
		default:
			words = append(words, one.Path+"="+string(one.Content))
		}
	}
	return strings.Join(words, " ")
}

func TestChangesHaveTheDirectoriesAboveThem(t *testing.T) {
	for want, c := range map[string][2]Tree{
		"":              {treeOf("a/", "a/b=1"), treeOf("a/", "a/b=1")},
		"a/ a/b=2":      {treeOf("a/", "a/b=1", "c=1"), treeOf("a/", "a/b=2", "c=1")},
		"a/ -a/b a/c=1": {treeOf("a/", "a/b=1"), treeOf("a/", "a/c=1")},
		"-a":            {treeOf("a/", "a/b/", "a/b/c=1", "a/d=1"), treeOf()},
		"a=1":           {treeOf("a/", "a/b/", "a/b/c=1"), treeOf("a=1")},
		"a/ a/b=1":      {treeOf("a=1"), treeOf("a/", "a/b=1")},
		"-a -a.b":       {treeOf("a/", "a/b=1", "a.b=1"), treeOf()},
	} {
		if got := shownChanges(Changes(c[0], c[1])); got != want {
			t.Errorf("%s, not %s", got, want)
		}
	}
}

// random returns a tree on few names.
func random(r *rand.Rand) Tree {
	found := map[string]string{}
	for range r.Intn(8) {
		var names []string
		for range 1 + r.Intn(3) {
			names = append(names, []string{"a", "b", "a.b"}[r.Intn(3)])
		}
		for i := 1; i < len(names); i++ {
			found[strings.Join(names[:i], "/")] = "/"
		}
		if path := strings.Join(names, "/"); found[path] == "" {
			found[path] = fmt.Sprint("=", r.Intn(2))
		}
	}
	var words []string
	for path, kind := range found {
		words = append(words, path+kind)
	}
	return treeOf(words...)
}

func TestChangesMakeTheTreeAfterThem(t *testing.T) {
	r := rand.New(rand.NewSource(1))
	for range 2000 {
		before, after := random(r), random(r)
		if got := Apply(before, Changes(before, after)); !Equal(got, after) {
			t.Fatalf("%v and %v: %v", before, after, got)
		}
	}
}
