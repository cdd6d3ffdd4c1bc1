// Three tests as the author of a frontend keeps them: llbmtest solves what the frontend makes, and looks at the tree.
package frontend

import (
	"testing"

	"github.com/moby/buildkit/client/llb"
	"llbm.example/llbm/bindings/go/llbmtest"
)

// The frontend under test, which puts the program of a project into an image of its own.
func image(project llb.State) llb.State {
	copied := project.Run(llb.Shlex("cp /src/main /image/bin/main"))
	return copied.AddMount("/image", llb.Scratch().File(llb.Mkdir("/bin", 0o755)))
}

var project = llbmtest.Files("project", map[string]string{"src/main": "main\n", "README": "read me\n"})

func TestTheImageHoldsTheProgram(t *testing.T) {
	r := llbmtest.Solve(t, image(llb.Local("project")), project)
	r.Missing("/README").File("/bin/main").Equals("main\n").Mode(0o644).Owner(0, 0)
}

func TestAProgramThatIsLeftOutIsMissing(t *testing.T) {
	without := llb.Local("project", llb.ExcludePatterns([]string{"src/main"}))
	llbmtest.Fails(t, image(without), "there is no file /src/main", project)
}

func TestBuildKitMakesTheSame(t *testing.T) {
	llbmtest.Solve(t, image(llb.Local("project")), project).SameAsBuildKit()
}
