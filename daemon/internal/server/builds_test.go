package server

import (
	"bytes"
	"context"
	"crypto/sha256"
	"fmt"
	"io"
	"os"
	"path/filepath"
	"strings"
	"sync"
	"testing"

	"github.com/moby/buildkit/client"
	"github.com/moby/buildkit/client/llb"
	gwclient "github.com/moby/buildkit/frontend/gateway/client"
	"github.com/moby/buildkit/solver/errdefs"
	spb "github.com/moby/buildkit/sourcepolicy/pb"
	"google.golang.org/grpc/codes"
	"google.golang.org/grpc/status"
	"llbm/daemon/internal/cases"
)

func TestAResultIsExported(t *testing.T) {
	d := started(t, nil)
	state := llb.Scratch().File(llb.Mkdir("/a", 0o700)).File(llb.Mkfile("/a/b", 0o604, []byte("hi"), llb.WithUIDGID(3, 4)))
	want := "0700 0:0 a/ \"\"\n0604 3:4 a/b \"hi\"\n"
	if got, err := d.solved(t, state, client.SolveOpt{}); err != nil || got != want {
		t.Errorf("%s%v", got, err)
	}
	for _, text := range []string{"\xff\xff", "\xff\x00\x00\x00\x00"} { // as tokens are, which there are none of without a source
		got, err := d.solved(t, llb.Scratch().File(llb.Mkfile("/a", 0o644, []byte(text))), client.SolveOpt{})
		if err != nil || got != fmt.Sprintf("0644 0:0 a %q\n", text) {
			t.Errorf("%s%v", got, err)
		}
	}
	out := t.TempDir()
	_, err := d.Solve(context.Background(), marshal(t, state), client.SolveOpt{Exports: []client.ExportEntry{{Type: "local", OutputDir: out}}}, nil)
	data, readErr := os.ReadFile(filepath.Join(out, "a/b"))
	if err != nil || readErr != nil || string(data) != "hi" {
		t.Error(err, readErr, string(data))
	}
}

func TestAnArchiveOfAnImageIsReproducible(t *testing.T) {
	d := started(t, nil)
	def := marshal(t, llb.Scratch().File(llb.Mkfile("/a", 0o644, []byte("hi"))))
	var first, second buffer
	for _, to := range []*buffer{&first, &second} {
		o := client.SolveOpt{Exports: []client.ExportEntry{toTar("oci", to, map[string]string{"name": "example/a:1"})}}
		response, err := d.Solve(context.Background(), def, o, nil)
		if err != nil {
			t.Fatal(err)
		}
		if !strings.HasPrefix(response.ExporterResponse["containerimage.digest"], "sha256:") {
			t.Error(response.ExporterResponse)
		}
	}
	if !bytes.Equal(first.Bytes(), second.Bytes()) || !strings.Contains(listed(t, first.Bytes()), `"org.opencontainers.image.ref.name\":\"1\"`) {
		t.Error(listed(t, first.Bytes()))
	}
}

func TestALocalSourceGoesThroughWithoutItsContentsBeingRead(t *testing.T) {
	d := started(t, nil)
	dir := directory(t, map[string]string{"big": strings.Repeat("\xff\x00big", 1<<20), "sub/small": "\xff\x00\x00\x00\x00"})
	state := llb.Scratch().File(llb.Copy(llb.Local("context"), "/", "/to", &llb.CopyInfo{CreateDestPath: true, CopyDirContentsOnly: true}))
	var archive buffer
	o := client.SolveOpt{LocalDirs: map[string]string{"context": dir}, Exports: []client.ExportEntry{toTar("tar", &archive, nil)}}
	_, err := d.Solve(context.Background(), marshal(t, state), o, nil)
	if err != nil {
		t.Fatal(err)
	}
	want := fmt.Sprintf("0644 0:0 to/big %q\n", strings.Repeat("\xff\x00big", 1<<20))
	if got := listed(t, archive.Bytes()); !strings.Contains(got, want) || !strings.Contains(got, "0644 0:0 to/sub/small \"\\xff\\x00\\x00\\x00\\x00\"\n") {
		t.Errorf("%d bytes", len(got))
	}
}

func TestACommandThatFailsSaysWhy(t *testing.T) {
	d := started(t, nil)
	dirs := map[string]string{"src": directory(t, map[string]string{"sub/a": "x"})}
	base := llb.Scratch().File(llb.Mkfile("/f", 0o644, nil))
	for script, want := range map[string]string{
		"cp /missing /y":                       "command 0 status 1: cp /missing /y: there is no file /missing",
		"cp ../in/missing /y":                  "command 0 status 1: cp ../in/missing /y: there is no file /in/missing",
		"concat /y /f /in/b":                   "command 0 status 1: concat /y /f /in/b: there is no file /in/b",
		"write /x x && sha256 /in /y":          "command 1 status 1: sha256 /in /y: /in is a directory",
		"write /x x && cp /in/sub/a /no/where": "command 1 status 1: cp /in/sub/a /no/where: there is no directory /no",
		"rm /f && cp /f /y":                    "command 1 status 1: cp /f /y: there is no file /f",
		"write /in/new x":                      "command 0 status 1: write /in/new x: the mount /in is read-only",
		"mkdir /d && mkdir /d":                 "command 1 status 1: mkdir /d: /d is there already",
		"test -f /f && false":                  "command 1 status 1: false: it always fails",
	} {
		run := base.Run(llb.Args([]string{"/bin/sh", "-c", script}), llb.Dir("/dir"))
		run.AddMount("/in", llb.Local("src"), llb.Readonly)
		_, err := d.solved(t, run.Root(), client.SolveOpt{LocalDirs: dirs})
		if err == nil || !strings.HasSuffix(err.Error(), want) {
			t.Errorf("%q: %v", script, err)
		}
	}
}

func TestASourceThatIsHashedIsGivenByValue(t *testing.T) {
	d := started(t, nil)
	dirs := map[string]string{"hashed": directory(t, map[string]string{"a": "\xffabc"}), "other": directory(t, map[string]string{"b": "\xff\x00"})}
	run := llb.Scratch().Run(llb.Args([]string{"/bin/sh", "-c", "sha256 /in/a /sum && cp /other/b /b"}), llb.Dir("/"))
	run.AddMount("/in", llb.Local("hashed"), llb.Readonly)
	run.AddMount("/other", llb.Local("other"), llb.Readonly)
	got, err := d.solved(t, run.Root(), client.SolveOpt{LocalDirs: dirs})
	want := fmt.Sprintf("0644 0:0 b \"\\xff\\x00\"\n0644 0:0 sum \"%x\\n\"\n", sha256.Sum256([]byte("\xffabc")))
	if err != nil || got != want {
		t.Errorf("%s%v", got, err)
	}
}

func TestOneNameWithTwoFiltersIsTwoSources(t *testing.T) {
	d := started(t, nil)
	dirs := map[string]string{"context": directory(t, map[string]string{"a": "1", "b": "2", "ü": "3"})}
	only := func(pattern string) llb.State { return llb.Local("context", llb.IncludePatterns([]string{pattern})) }
	all := &llb.CopyInfo{CreateDestPath: true, CopyDirContentsOnly: true}
	state := llb.Scratch().
		File(llb.Copy(only("a"), "/", "/1", all)).
		File(llb.Copy(only("ü"), "/", "/2", all)).
		File(llb.Copy(llb.Local("context", llb.ExcludePatterns([]string{"a"})), "/", "/3", all))
	want := "0755 0:0 1/ \"\"\n0644 0:0 1/a \"1\"\n0755 0:0 2/ \"\"\n0644 0:0 2/ü \"3\"\n0755 0:0 3/ \"\"\n0644 0:0 3/b \"2\"\n0644 0:0 3/ü \"3\"\n"
	if got, err := d.solved(t, state, client.SolveOpt{LocalDirs: dirs}); err != nil || got != want {
		t.Errorf("%s%v", got, err)
	}
}

func TestRefusalsHaveACodeAndLlbmsNumber(t *testing.T) {
	d := started(t, nil)
	file := llb.Scratch().File(llb.Mkfile("/a", 0o644, nil))
	none := client.SolveOpt{}
	again := llb.Scratch().Run(llb.Args([]string{"/bin/sh", "-c", "mkdir a && mkdir a"}), llb.Dir("/")).Root()
	image := client.SolveOpt{Exports: []client.ExportEntry{{Type: "image"}}}
	for name, c := range map[string]struct {
		state llb.State
		opt   client.SolveOpt
		code  codes.Code
		text  string
	}{
		"an image":            {llb.Image("docker.io/library/a:b"), none, codes.Unimplemented, "llbm: fault 88 0 Source (docker-image://docker.io/library/a:b)"},
		"no script":           {llb.Scratch().Run(llb.Shlex("make all")).Root(), none, codes.InvalidArgument, "llbm: fault 89 0 Script 71 make"},
		"a failing action":    {llb.Scratch().File(llb.Rm("/a/b")), none, codes.Unknown, "llbm: failed 0 action 0 fault 21 NotFound: rm /a/b: nothing is at /a/b"},
		"a long name, cut":    {llb.Scratch().Run(llb.Args([]string{"make", strings.Repeat("x", 300)})).Root(), none, codes.InvalidArgument, "xx ..)"},
		"a name with escapes": {llb.Scratch().File(llb.Mkdir("/a\x1b[1m", 0o755)), none, codes.Unknown, `26 BadName: mkdir /a\x1b[1m: the text of path is`},
		"a failing copy":      {llb.Scratch().File(llb.Copy(file, "/b", "/c")), none, codes.Unknown, `0 fault 21 NotFound: "/b": not found: lstat /b: no such`},
		"a failing command":   {again, none, codes.Unknown, "llbm: failed 0 command 1 status 1: mkdir a"},
		"an exporter":         {file, image, codes.Unimplemented, `exporter "image"`},
	} {
		_, err := d.Solve(context.Background(), marshal(t, c.state), c.opt, nil)
		if status.Code(unwrapped(err)) != c.code || !strings.Contains(fmt.Sprint(err), c.text) {
			t.Errorf("%s: %v: %v", name, status.Code(unwrapped(err)), err)
		}
	}
}

func TestCachesAreTakenWithAWarning(t *testing.T) {
	d := started(t, nil)
	registry := []client.CacheOptionsEntry{{Type: "registry", Attrs: map[string]string{"ref": "a"}}}
	got, err := d.warnings(t, llb.Scratch().File(llb.Mkfile("/a", 0o644, nil)), client.SolveOpt{CacheExports: registry, CacheImports: registry})
	want := "no cache is exported: llbmd keeps nothing but sources\nno cache is imported: llbmd keeps nothing but sources"
	if got != want || err != nil {
		t.Errorf("%q %v", got, err)
	}
}

// unwrapped returns the error of gRPC inside one of the client's.
func unwrapped(err error) error {
	for err != nil {
		if _, ok := err.(interface{ GRPCStatus() *status.Status }); ok {
			return err
		}
		wrapper, ok := err.(interface{ Unwrap() error })
		if !ok {
			return err
		}
		err = wrapper.Unwrap()
	}
	return err
}

func TestAFailureNamesItsVertexAndItsPlaceInTheSource(t *testing.T) {
	d := started(t, nil)
	sources := llb.NewSourceMap(nil, "build.lang", "lang", []byte("rm /a\n"))
	place := sources.Location([]*pbRange{{Start: pbPosition{Line: 1}}})
	_, err := d.Solve(context.Background(), marshal(t, llb.Scratch().File(llb.Rm("/a"), place)), client.SolveOpt{}, nil)
	found := errdefs.Sources(err)
	if len(found) != 1 || found[0].Info.Filename != "build.lang" || found[0].Info.Language != "lang" || found[0].Ranges[0].Start.Line != 1 {
		t.Errorf("%+v %v", found, err)
	}
}

func TestPoliciesDenyAndConvertSources(t *testing.T) {
	d := started(t, nil)
	dirs := map[string]string{"context": directory(t, map[string]string{"a": "1"})}
	rule := func(action spb.PolicyAction, to string) *spb.Policy {
		r := &spb.Rule{Action: action, Selector: &spb.Selector{Identifier: "docker-image://docker.io/library/base:*", MatchType: spb.MatchType_WILDCARD}}
		if to != "" {
			r.Updates = &spb.Update{Identifier: to}
		}
		return &spb.Policy{Version: 1, Rules: []*spb.Rule{r}}
	}
	def := marshal(t, llb.Image("docker.io/library/base:1").File(llb.Mkfile("/b", 0o600, nil)))
	build := func(ctx context.Context, c gwclient.Client) (*gwclient.Result, error) {
		return c.Solve(ctx, gwclient.SolveRequest{Definition: def.ToPB()})
	}
	solve := func(policy *spb.Policy) (string, error) {
		var archive buffer
		o := client.SolveOpt{LocalDirs: dirs, SourcePolicy: policy, Exports: []client.ExportEntry{toTar("tar", &archive, nil)}}
		_, err := d.Build(context.Background(), o, "", build, nil)
		return archive.String(), err
	}
	if _, err := solve(rule(spb.PolicyAction_DENY, "")); err == nil || !strings.Contains(err.Error(), "denied by policy") {
		t.Error(err)
	}
	archive, err := solve(rule(spb.PolicyAction_CONVERT, "local://context"))
	if got := listed(t, []byte(archive)); err != nil || got != "0644 0:0 a \"1\"\n0600 0:0 b \"\"\n" {
		t.Errorf("%s%v", got, err)
	}
}

func TestAFrontendInTheClientReadsResults(t *testing.T) {
	d := started(t, nil)
	def := marshal(t, llb.Scratch().File(llb.Mkdir("/d", 0o750).Mkfile("/d/f", 0o640, []byte("hello")).Mkdir("/d/e", 0o700)))
	build := func(ctx context.Context, c gwclient.Client) (*gwclient.Result, error) {
		r, err := c.Solve(ctx, gwclient.SolveRequest{Definition: def.ToPB()})
		if err != nil {
			return nil, err
		}
		ref, err := r.SingleRef()
		if err != nil {
			return nil, err
		}
		part, err := ref.ReadFile(ctx, gwclient.ReadRequest{Filename: "/d/f", Range: &gwclient.FileRange{Offset: 1, Length: 3}})
		if err != nil || string(part) != "ell" {
			t.Errorf("%q %v", part, err)
		}
		list, err := ref.ReadDir(ctx, gwclient.ReadDirRequest{Path: "/d"})
		if err != nil || len(list) != 2 || list[0].Path != "e" || list[1].Path != "f" || list[1].Size_ != 5 {
			t.Errorf("%+v %v", list, err)
		}
		if list, err = ref.ReadDir(ctx, gwclient.ReadDirRequest{Path: "d", IncludePattern: "f*"}); err != nil || len(list) != 1 {
			t.Errorf("%+v %v", list, err)
		}
		st, err := ref.StatFile(ctx, gwclient.StatRequest{Path: "d/f"})
		if err != nil || os.FileMode(st.Mode) != 0o640 {
			t.Errorf("%+v %v", st, err)
		}
		if _, err := ref.ReadFile(ctx, gwclient.ReadRequest{Filename: "/no"}); status.Code(unwrapped(err)) != codes.NotFound {
			t.Error(err)
		}
		r.AddMeta("frontend.said", []byte("hi"))
		r.AddMeta("other", []byte("not told"))
		return r, nil
	}
	var archive buffer
	response, err := d.Build(context.Background(), client.SolveOpt{Exports: []client.ExportEntry{toTar("tar", &archive, nil)}}, "", build, nil)
	if err != nil || response.ExporterResponse["frontend.said"] != "hi" || len(response.ExporterResponse) != 1 {
		t.Fatal(response, err)
	}
	if got := listed(t, archive.Bytes()); got != "0750 0:0 d/ \"\"\n0700 0:0 d/e/ \"\"\n0640 0:0 d/f \"hello\"\n" {
		t.Error(got)
	}
}

func TestAResultIsSolvedAtItsFirstUse(t *testing.T) {
	d := started(t, nil)
	fails := marshal(t, llb.Scratch().File(llb.Rm("/a")))
	build := func(ctx context.Context, c gwclient.Client) (*gwclient.Result, error) {
		r, err := c.Solve(ctx, gwclient.SolveRequest{Definition: fails.ToPB()})
		if err != nil {
			t.Errorf("before its use: %v", err)
			return nil, err
		}
		ref, err := r.SingleRef()
		if err != nil {
			return nil, err
		}
		if err := ref.Evaluate(ctx); err == nil || !strings.Contains(err.Error(), "fault 21") {
			t.Error(err)
		}
		if _, err := c.Solve(ctx, gwclient.SolveRequest{Definition: fails.ToPB(), Evaluate: true}); err == nil {
			t.Error("it was solved")
		}
		return gwclient.NewResult(), nil
	}
	if _, err := d.Build(context.Background(), client.SolveOpt{}, "", build, nil); err != nil {
		t.Error(err)
	}
}

func TestSeveralPlatformsHaveAFolderEach(t *testing.T) {
	d := started(t, nil)
	build := func(ctx context.Context, c gwclient.Client) (*gwclient.Result, error) {
		out := gwclient.NewResult()
		for _, id := range []string{"linux/amd64", "linux/arm64"} {
			def := marshal(t, llb.Scratch().File(llb.Mkfile("/"+filepath.Base(id), 0o600, []byte(id))))
			r, err := c.Solve(ctx, gwclient.SolveRequest{Definition: def.ToPB()})
			if err != nil {
				return nil, err
			}
			ref, err := r.SingleRef()
			if err != nil {
				return nil, err
			}
			out.AddRef(id, ref)
		}
		out.AddMeta("refs.platforms", []byte(`{"Platforms":[{"ID":"linux/amd64","Platform":{"os":"linux","architecture":"amd64"}},
			{"ID":"linux/arm64","Platform":{"os":"linux","architecture":"arm64"}}]}`))
		return out, nil
	}
	var archive buffer
	if _, err := d.Build(context.Background(), client.SolveOpt{Exports: []client.ExportEntry{toTar("tar", &archive, nil)}}, "", build, nil); err != nil {
		t.Fatal(err)
	}
	want := "0755 0:0 linux_amd64/ \"\"\n0600 0:0 linux_amd64/amd64 \"linux/amd64\"\n0755 0:0 linux_arm64/ \"\"\n0600 0:0 linux_arm64/arm64 \"linux/arm64\"\n"
	if got := listed(t, archive.Bytes()); got != want {
		t.Error(got)
	}
	out := t.TempDir()
	if _, err := d.Build(context.Background(), client.SolveOpt{Exports: []client.ExportEntry{{Type: "local", OutputDir: out}}}, "", build, nil); err != nil {
		t.Fatal(err)
	}
	if data, err := os.ReadFile(filepath.Join(out, "linux_arm64/arm64")); err != nil || string(data) != "linux/arm64" {
		t.Error(string(data), err)
	}
	if _, err := d.Build(context.Background(), client.SolveOpt{Exports: []client.ExportEntry{toTar("oci", &archive, nil)}}, "", build, nil); err != nil {
		t.Error(err)
	}
}

func TestProgressHasALineForEachCommand(t *testing.T) {
	d := started(t, nil)
	ch := make(chan *client.SolveStatus)
	logs, completed := "", map[string]bool{}
	var done sync.WaitGroup
	done.Add(1)
	go func() {
		defer done.Done()
		for event := range ch {
			for _, l := range event.Logs {
				logs += string(l.Data)
			}
			for _, v := range event.Vertexes {
				completed[v.Name] = completed[v.Name] || v.Completed != nil
			}
		}
	}()
	run := llb.Scratch().File(llb.Mkfile("/a", 0o644, nil), llb.WithCustomName("my file")).
		Run(llb.Args([]string{"/bin/sh", "-c", "cp a b ; false || true"}), llb.Dir("/"))
	_, err := d.Solve(context.Background(), marshal(t, run.Root()), client.SolveOpt{}, ch)
	done.Wait()
	if err != nil || logs != "cp a b\nfalse: status 1\ntrue\n" || !completed["my file"] {
		t.Errorf("%q %v %v", logs, completed, err)
	}
}

func TestActionsEndAsInBuildKit(t *testing.T) {
	file := llb.Scratch().File(llb.Mkfile("/a", 0o644, []byte("1")))
	missing := &llb.CopyInfo{AllowWildcard: true, AllowEmptyWildcard: true}
	state := file.File(llb.Mkdir("/b", 0o755).Copy(file, "/a", "/c/").Copy(file, "/no", "/d", missing))
	d := started(t, nil)
	_, err := d.solved(t, state, client.SolveOpt{})
	// The copy is the third action, although an mkdir is put before the second one.
	want := "action 2 fault 21 NotFound: \"/no\": not found"
	if err == nil || !strings.Contains(err.Error(), want) {
		t.Error(err)
	}
	literal := started(t, func(o *Options) { o.Literal = true })
	if _, err := literal.solved(t, state, client.SolveOpt{}); err == nil || !strings.Contains(err.Error(), "action 1 fault 21") {
		t.Error(err)
	}
	pattern := file.File(llb.Rm("/x*", llb.WithAllowWildcard(true)).Copy(file, "/a", "/c/"))
	if got, err := d.solved(t, pattern, client.SolveOpt{}); err != nil || got != "0644 0:0 a \"1\"\n0755 0:0 c/ \"\"\n0644 0:0 c/a \"1\"\n" {
		t.Errorf("%s%v", got, err)
	}
}

// 200 builds, of which many run at once; not all of them, since BuildKit's code gives the connection of a session 20 seconds to open.
func TestManyBuildsAtOnce(t *testing.T) {
	d := started(t, nil)
	dir := directory(t, map[string]string{"a": "1"})
	var group sync.WaitGroup
	room := make(chan bool, 40)
	for i := range cases.Of(200) {
		group.Add(1)
		room <- true
		go func() {
			defer func() { <-room; group.Done() }()
			text := fmt.Sprint(i)
			state := llb.Local("context").File(llb.Mkfile("/b", 0o600, []byte(text)))
			var archive buffer
			o := client.SolveOpt{LocalDirs: map[string]string{"context": dir}, Exports: []client.ExportEntry{toTar("tar", &archive, nil)}}
			_, err := d.Solve(context.Background(), marshal(t, state), o, nil)
			if want := fmt.Sprintf("0644 0:0 a \"1\"\n0600 0:0 b %q\n", text); err != nil || listed(t, archive.Bytes()) != want {
				t.Errorf("%d: %v", i, err)
			}
		}()
	}
	group.Wait()
	eventually(t, "no child runs", func() bool { return len(d.children(t)) == 0 })
}

func TestTheHistoryHasTheLastBuilds(t *testing.T) {
	d := started(t, nil)
	_, err := d.Solve(context.Background(), marshal(t, llb.Scratch().File(llb.Rm("/a"))), client.SolveOpt{Ref: "my-ref"}, nil)
	if err == nil {
		t.Fatal("it was solved")
	}
	stream, err := d.ControlClient().ListenBuildHistory(context.Background(), &historyRequest{EarlyExit: true})
	if err != nil {
		t.Fatal(err)
	}
	event, err := stream.Recv()
	if err != nil || event.Record.Ref != "my-ref" || event.Record.CompletedAt == nil || !strings.Contains(event.Record.Error.GetMessage(), "fault 21") {
		t.Fatalf("%+v %v", event, err)
	}
	if _, err := stream.Recv(); err != io.EOF {
		t.Error(err)
	}
	if _, err := d.ControlClient().UpdateBuildHistory(context.Background(), &historyUpdate{Ref: "my-ref", Delete: true}); err != nil {
		t.Error(err)
	}
	if _, err := d.ControlClient().UpdateBuildHistory(context.Background(), &historyUpdate{Ref: "my-ref", Delete: true}); status.Code(err) != codes.NotFound {
		t.Error(err)
	}
}
