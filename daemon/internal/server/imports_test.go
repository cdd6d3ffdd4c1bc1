package server

import (
	"go/parser"
	"go/token"
	"io/fs"
	"path/filepath"
	"strings"
	"testing"
)

// mostImports is how many of the daemon's packages one of them imports at most.
const mostImports = 9

func TestNoPackageImportsTenOfTheOthers(t *testing.T) {
	imports := map[string]map[string]bool{}
	err := filepath.WalkDir("../..", func(path string, entry fs.DirEntry, err error) error {
		if err != nil || entry.IsDir() || !strings.HasSuffix(path, ".go") || strings.HasSuffix(path, "_test.go") {
			return err
		}
		file, err := parser.ParseFile(token.NewFileSet(), path, nil, parser.ImportsOnly)
		if err != nil {
			return err
		}
		from := filepath.Dir(path)
		if imports[from] == nil {
			imports[from] = map[string]bool{}
		}
		for _, one := range file.Imports {
			if strings.HasPrefix(one.Path.Value, `"llbm/daemon/`) {
				imports[from][one.Path.Value] = true
			}
		}
		return nil
	})
	if err != nil {
		t.Fatal(err)
	}
	if len(imports["../../internal/solver"]) == 0 {
		t.Error("the packages are not there")
	}
	for from, found := range imports {
		if len(found) > mostImports {
			t.Errorf("%s imports %d of the daemon's packages, and at most %d is enough", from, len(found), mostImports)
		}
	}
}
