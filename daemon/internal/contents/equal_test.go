package contents

import (
	"bytes"
	"strings"
	"testing"
)

func TestContentsAreEqualByTheirBytesAndNotByTheirTexts(t *testing.T) {
	long := strings.Repeat("x", 1<<16)
	_, _, refs := stored(t, 1<<20, "hello", "hello", "hellp", "", long, long[1:]+"y", long)
	table := NewTable()
	defer table.Close()
	texts := map[string][]byte{"text": []byte("hello"), "nothing": nil, "no token": {Mark, 0, 0}}
	for i, name := range []string{"hello", "again", "other", "empty", "long", "end", "long again"} {
		token, err := table.Add(refs[i])
		if err != nil {
			t.Fatal(err)
		}
		texts[name] = token
	}
	for _, name := range []string{"link", "other link"} {
		token, err := table.AddLink(name)
		if err != nil {
			t.Fatal(err)
		}
		texts[name] = token
	}
	texts["joined"] = bytes.Join([][]byte{[]byte("hel"), texts["empty"], []byte("lo")}, nil)
	for _, one := range []struct {
		text, other string
		want        bool
	}{
		{"hello", "hello", true}, {"hello", "again", true}, {"hello", "text", true}, {"hello", "joined", true}, {"hello", "other", false},
		{"hello", "empty", false}, {"empty", "nothing", true}, {"long", "long again", true}, {"long", "end", false}, {"long", "hello", false},
		{"link", "link", true}, {"link", "other link", false}, {"link", "empty", false}, {"no token", "no token", true}, {"no token", "hello", false},
	} {
		if got := table.AreEqual(texts[one.text], texts[one.other]); got != one.want {
			t.Errorf("%s and %s: %v", one.text, one.other, got)
		}
		if got := table.AreEqual(texts[one.other], texts[one.text]); got != one.want {
			t.Errorf("%s and %s: %v", one.other, one.text, got)
		}
	}
}
