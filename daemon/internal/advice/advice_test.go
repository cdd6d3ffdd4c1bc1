package advice

import (
	"fmt"
	"go/ast"
	"go/parser"
	"go/token"
	"io/fs"
	"path/filepath"
	"regexp"
	"strconv"
	"strings"
	"testing"

	"google.golang.org/grpc/codes"
	"google.golang.org/grpc/status"
	"llbm/daemon/internal/rules"
)

// A refusal is one in the daemon's sources: where it is, its code if it is a constant, and a message of its form.
type refusal struct{ place, code, message string }

// before are the words that a package puts before what it refuses by a function of its own, by the name of the function's folder.
var before = map[string]string{"sources": "local source x: ", "images": "image x: "}

// inside are the words that a package puts before each of its errors.
var inside = map[string]string{"images": "image x: "}

// verbs are what a form prints.
var verbs = regexp.MustCompile(`%[.+#0-9*]*[a-zA-Z]`)

// refusals returns all refusals in the daemon's sources.
func refusalsIn(t *testing.T) []refusal {
	t.Helper()
	var out []refusal
	err := filepath.WalkDir("..", func(path string, entry fs.DirEntry, err error) error {
		if err != nil || entry.IsDir() || !strings.HasSuffix(path, ".go") || strings.HasSuffix(path, "_test.go") {
			return err
		}
		set := token.NewFileSet()
		file, err := parser.ParseFile(set, path, nil, 0)
		if err != nil {
			return err
		}
		ast.Inspect(file, func(n ast.Node) bool {
			if call, ok := n.(*ast.CallExpr); ok {
				if one := refusalOf(call, filepath.Base(filepath.Dir(path))); one != nil {
					one.place = set.Position(call.Pos()).String()
					out = append(out, *one)
				}
			}
			return true
		})
		return nil
	})
	if err != nil {
		t.Fatal(err)
	}
	return out
}

// refusalOf returns the refusal that a call makes: of status.Error, of status.Errorf, or of a function refuse.
func refusalOf(call *ast.CallExpr, folder string) *refusal {
	name, own := "", ""
	switch f := call.Fun.(type) {
	case *ast.SelectorExpr:
		from, _ := f.X.(*ast.Ident)
		switch {
		case from != nil && from.Name == "status" && (f.Sel.Name == "Error" || f.Sel.Name == "Errorf"):
			name, own = "status", inside[folder]
		case f.Sel.Name == "refuse" && before[folder] != "":
			name, own = "refuse", before[folder]
		}
	case *ast.Ident:
		if f.Name == "refuse" && before[folder] != "" {
			name, own = "refuse", before[folder]
		}
	}
	if name == "" {
		return nil
	}
	one := &refusal{}
	var texts []string
	for _, arg := range call.Args {
		if selector, ok := arg.(*ast.SelectorExpr); ok && one.code == "" {
			if from, ok := selector.X.(*ast.Ident); ok && from.Name == "codes" {
				one.code = selector.Sel.Name
				continue
			}
		}
		if text := textOf(arg); text != "" {
			texts = append(texts, text)
		}
	}
	if len(texts) == 0 {
		return nil // the message is another error's
	}
	one.message = own + verbs.ReplaceAllStringFunc(texts[0], func(verb string) string {
		return map[byte]string{'q': `"x"`, 'd': "7"}[verb[len(verb)-1]]
	})
	return one
}

// textOf returns the constant text that an expression begins with.
func textOf(e ast.Expr) string {
	switch x := e.(type) {
	case *ast.BasicLit:
		if text, err := strconv.Unquote(x.Value); err == nil && x.Kind == token.STRING {
			return text
		}
	case *ast.BinaryExpr:
		return textOf(x.X)
	}
	return ""
}

func TestEachRefusalTellsTheNextStep(t *testing.T) {
	count := 0
	for _, one := range refusalsIn(t) {
		if one.code == "Internal" || one.code == "Canceled" || one.code == "Unknown" || strings.Contains(one.message, "\n") {
			continue
		}
		count++
		if _, ok := Of(one.message); !ok {
			t.Errorf("%s: %s: no row of the table has a next step for %q", one.place, one.code, one.message)
		}
	}
	if count < 60 {
		t.Errorf("only %d refusals were read", count)
	}
}

// What is no constant text where a refusal is made.
func TestARefusalByALinkOrASecretTellsTheNextStep(t *testing.T) {
	const link, secret = "name the path to which the link leads", "give the RUN a stand-in"
	for message, want := range map[string]string{
		rules.Following{Action: 1, Path: "/a/b", Link: "/a"}.String():                        link,
		rules.Following{Action: -1, Path: "command 0: /a/b", Link: "/a"}.String():            link,
		rules.Following{Action: -1, Path: "mount 1: the selector /a", Link: "/a"}.String():   link,
		rules.Following{Action: -1, Path: "the working directory /a"}.String():               link,
		"a source has symbolic links, and whether BuildKit would follow one is not known: x": link,
		"fault 88 1 SecretMount ([2/2] RUN make)":                                            secret,
		"fault 88 12 SshMount (RUN make)":                                                    secret,
		"fault 88 1 SecretEnv":                                                               secret,
	} {
		if next, ok := Of("llbm: " + message); !ok || !strings.Contains(next, want) {
			t.Errorf("%s: %s", message, next)
		}
	}
}

func TestTheNextStepIsTheSecondLine(t *testing.T) {
	err := Add(status.Error(codes.ResourceExhausted, "the store of contents is full: it has 1 bytes, and may have 1"))
	want := "the store of contents is full: it has 1 bytes, and may have 1\n" + ofStore
	if status.Code(err) != codes.ResourceExhausted || status.Convert(err).Message() != want {
		t.Error(err)
	}
	if again := Add(err); fmt.Sprint(again) != fmt.Sprint(err) {
		t.Error(again)
	}
	for _, other := range []error{nil, status.Error(codes.Canceled, "the build has ended"), status.Error(codes.Internal, "x"), fmt.Errorf("x")} {
		if got := Add(other); fmt.Sprint(got) != fmt.Sprint(other) {
			t.Error(got)
		}
	}
}
