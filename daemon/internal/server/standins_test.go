package server

import (
	"context"
	"fmt"
	"strings"
	"testing"

	"github.com/moby/buildkit/client"
	"github.com/moby/buildkit/client/llb"
	gwclient "github.com/moby/buildkit/frontend/gateway/client"
	"google.golang.org/grpc/codes"
	"google.golang.org/grpc/status"
	"llbm/daemon/internal/standins"
)

// withRules starts a daemon with rules for executions.
func withRules(t *testing.T, text string, skips bool) *daemon {
	t.Helper()
	rules, err := standins.Read([]byte(text))
	if err != nil {
		t.Fatal(err)
	}
	return started(t, func(o *Options) { o.StandIns = standins.Set{Rules: rules, Skips: skips} })
}

// building is an execution of a compiler, as a Dockerfile has it, with a secret and a network.
func building() llb.State {
	return llb.Scratch().File(llb.Mkdir("/src", 0o755)).Run(
		llb.Args([]string{"/bin/sh", "-c", "cd /src && go build -o /app ./..."}), llb.Dir("/"), llb.AddSecret("/run/secrets/token"),
		llb.AddSSHSocket(), llb.Network(llb.NetModeHost), llb.WithCustomName("RUN go build"),
	).Root()
}

func TestARuleGivesAnExecutionAStandIn(t *testing.T) {
	want := "0644 0:0 app \"binary\\n\"\n0755 0:0 src/ \"\"\n"
	for _, rule := range []string{
		"pattern '*go build*' => write /app binary", "name 'RUN go build' => write /app binary",
		"words make => false\nwords /bin/sh -c 'cd /src && go build -o /app ./...' => /bin/sh -c 'write /app binary'",
	} {
		got, err := withRules(t, rule, false).solved(t, building(), client.SolveOpt{})
		if err != nil || got != want {
			t.Errorf("%s: %s%v", rule, got, err)
		}
	}
}

// asked builds the execution by a frontend, with options: of the client, or of a frontend in the client that calls the other one.
func (d *daemon) asked(t *testing.T, dirs, options map[string]string, isCalled bool) (string, error) {
	t.Helper()
	var archive buffer
	options["do"] = "run"
	o := client.SolveOpt{LocalDirs: dirs, Exports: []client.ExportEntry{toTar("tar", &archive, nil)}}
	var err error
	if isCalled {
		_, err = d.Build(t.Context(), o, "", func(ctx context.Context, c gwclient.Client) (*gwclient.Result, error) {
			return c.Solve(ctx, gwclient.SolveRequest{Frontend: "test.v0", FrontendOpt: options})
		}, nil)
	} else {
		o.Frontend, o.FrontendAttrs = "test.v0", options
		_, err = d.Solve(t.Context(), nil, o, nil)
	}
	if err != nil {
		return "", err
	}
	return listed(t, archive.Bytes()), nil
}

func TestAClientHasRulesOfItsOwn(t *testing.T) {
	rules, err := standins.Read([]byte("pattern * => false"))
	if err != nil {
		t.Fatal(err)
	}
	d := withFrontend(t, func(o *Options) { o.StandIns.Rules = rules })
	dirs := map[string]string{"mine": directory(t, map[string]string{
		"1.rules": "# first\nname other => true\n", "2.rules": "pattern '*go build*' => write /app binary\n", "readme": "no rule",
	})}
	want := "0644 0:0 app \"binary\\n\"\n0755 0:0 src/ \"\"\n"
	for key, value := range map[string]string{"llbm:rules": "mine", "context:llbm-rules": "local:mine"} {
		for _, isCalled := range []bool{false, true} {
			if got, err := d.asked(t, dirs, map[string]string{key: value}, isCalled); err != nil || got != want {
				t.Errorf("%s: %s%v", key, got, err)
			}
		}
	}
	if _, err := d.asked(t, dirs, map[string]string{}, false); !strings.Contains(fmt.Sprint(err), "command 0 status 1: false") {
		t.Error(err)
	}
}

func TestExecutionsThatAreNoScriptsCanDoNothing(t *testing.T) {
	state := building().Run(llb.Args([]string{"mkdir", "/made"}), llb.Dir("/")).Root()
	want := "0755 0:0 made/ \"\"\n0755 0:0 src/ \"\"\n"
	d := withRules(t, "", true)
	if got, err := d.solved(t, state, client.SolveOpt{}); err != nil || got != want {
		t.Errorf("%s%v", got, err)
	}
	warnings, err := d.warnings(t, state, client.SolveOpt{})
	if line := "this does nothing, as it is no script of llbm: cd /src && go build -o /app ./..."; err != nil || strings.Count(warnings, line) != 1 {
		t.Error(warnings, err)
	}
	o := client.SolveOpt{FrontendAttrs: map[string]string{"llbm:run": "skip"}}
	if got, err := started(t, nil).solved(t, state, o); err != nil || got != want {
		t.Errorf("%s%v", got, err)
	}
}

func TestARefusedExecutionSaysTheWordAndTheTwoOptions(t *testing.T) {
	d := started(t, nil)
	for script, want := range map[string]string{
		"go build ./...":  `llbm: fault 89 1 Script 71 go (RUN): "go" is no command of llbm, which has those of docs/FORMATS.md`,
		"chmod +x /a":     "llbm: fault 89 1 Script 72 0 (RUN): chmod of llbm does not take these words",
		"mkdir /a; rm /b": `llbm: fault 89 1 Script 73 8 (RUN): a script of llbm does not have ';', which its byte 8 is`,
	} {
		run := llb.Scratch().File(llb.Mkdir("/a", 0o755)).Run(llb.Args([]string{"/bin/sh", "-c", script}), llb.Dir("/"), llb.WithCustomName("RUN")).Root()
		_, err := d.solved(t, run, client.SolveOpt{})
		_, next, _ := strings.Cut(fmt.Sprint(err), "\n")
		if status.Code(unwrapped(err)) != codes.InvalidArgument || !strings.Contains(err.Error(), want) || next != standins.Advice {
			t.Errorf("%s: %v", script, err)
		}
	}
}

func TestStandInsThatAreNoneAreRefused(t *testing.T) {
	d := withFrontend(t, nil)
	dirs := map[string]string{"bad": directory(t, map[string]string{"a.rules": "\nword a => true"}), "none": directory(t, map[string]string{"a": ""})}
	for attrs, want := range map[string]string{
		"llbm:run=never":                      "llbm:run=never: it is skip or refuse",
		"llbm:rules=bad":                      "the rules of local source bad: a.rules: a rule begins with digest, name, words or pattern: line 2",
		"llbm:rules=none":                     "local source none has no file *.rules",
		"context:llbm-rules=docker-image://a": "context:llbm-rules=docker-image://a: the rules are in a directory",
	} {
		key, value, _ := strings.Cut(attrs, "=")
		if _, err := d.asked(t, dirs, map[string]string{key: value}, false); !strings.Contains(fmt.Sprint(err), want) {
			t.Errorf("%s: %v", attrs, err)
		}
	}
}
