package server

import (
	"archive/tar"
	"bytes"
	"context"
	"io"
	"os"
	"path/filepath"
	"strings"
	"testing"

	"github.com/moby/buildkit/client"
	"github.com/moby/buildkit/client/llb"
	gwclient "github.com/moby/buildkit/frontend/gateway/client"
)

// linked makes a directory with links, as a project with node_modules has them.
func linked(t *testing.T) string {
	t.Helper()
	root := directory(t, map[string]string{"modules/tool/cli.js": "cli", "etc/real/conf": "conf", "data": "data"})
	for path, target := range map[string]string{
		"modules/.bin/tool": "../tool/cli.js", "etc/current": "real", "absolute": "/etc/real", "dangling": "missing",
	} {
		place := filepath.Join(root, path)
		if err := os.MkdirAll(filepath.Dir(place), 0o755); err != nil {
			t.Fatal(err)
		}
		if err := os.Symlink(target, place); err != nil {
			t.Fatal(err)
		}
	}
	return root
}

func fromFolder(root string) client.SolveOpt {
	return client.SolveOpt{LocalDirs: map[string]string{"context": root}}
}

const modules = `0755 0:0 modules/ ""
0755 0:0 modules/.bin/ ""
0777 0:0 modules/.bin/tool -> ../tool/cli.js
0755 0:0 modules/tool/ ""
0644 0:0 modules/tool/cli.js "cli"
`

func TestLinksAreCopiedMergedAndExportedAsTheyAre(t *testing.T) {
	d, root := started(t, func(o *Options) { o.Strict = true }), linked(t)
	context := llb.Local("context")
	copied := llb.Scratch().File(llb.Copy(context, "/modules", "/"))
	owned := &llb.CopyInfo{ChownOpt: &llb.ChownOpt{User: &llb.UserOpt{UID: 7}, Group: &llb.UserOpt{UID: 8}}, Mode: modeOf(0o700)}
	run := copied.Run(llb.Args([]string{"write", "/out", "x"}), llb.Dir("/")).Root()
	for name, one := range map[string]struct {
		state llb.State
		want  string
	}{
		"a copy":              {copied, modules},
		"a copy of a copy":    {llb.Scratch().File(llb.Copy(copied, "/", "/", &llb.CopyInfo{CopyDirContentsOnly: true})), modules},
		"a merge":             {llb.Merge([]llb.State{copied, llb.Scratch().File(llb.Mkfile("/z", 0o644, nil))}), modules + "0644 0:0 z \"\"\n"},
		"after an execution":  {run, modules + "0644 0:0 out \"x\\n\"\n"},
		"an owner and a mode": {llb.Scratch().File(llb.Copy(context, "/modules/.bin", "/", owned)), "0700 7:8 .bin/ \"\"\n0777 7:8 .bin/tool -> ../tool/cli.js\n"},
		"a link over a file":  {llb.Scratch().File(llb.Mkfile("/dangling", 0o644, nil)).File(llb.Copy(context, "/dangling", "/")), "0777 0:0 dangling -> missing\n"},
	} {
		got, err := d.solved(t, one.state, fromFolder(root))
		if err != nil || got != one.want {
			t.Errorf("%s: %q, not %q: %v", name, got, one.want, err)
		}
	}
}

// The directory to which the link leads has the link alone, so llbm makes the same without following it.
func TestALinkThatIsFollowedToWhatIsMadeAnywayIsNoReasonToRefuse(t *testing.T) {
	d, root := started(t, nil), t.TempDir()
	folder := filepath.Join(root, "c", "a")
	if err := os.MkdirAll(folder, 0o755); err != nil {
		t.Fatal(err)
	}
	if err := os.Symlink("/c/a", filepath.Join(folder, "c")); err != nil {
		t.Fatal(err)
	}
	if err := os.Chmod(folder, 0o777|os.ModeSticky); err != nil {
		t.Fatal(err)
	}
	followed := &llb.CopyInfo{FollowSymlinks: true, CopyDirContentsOnly: true, CreateDestPath: true}
	got, err := d.solved(t, llb.Scratch().File(llb.Copy(llb.Local("context"), "/c/a/c", "/to/", followed)), fromFolder(root))
	if want := "0755 0:0 to/ \"\"\n0777 0:0 to/c -> /c/a\n"; err != nil || got != want {
		t.Errorf("%q, not %q: %v", got, want, err)
	}
}

func TestALinkOfAResultIsInADirectoryAndInALayer(t *testing.T) {
	d, root, to := started(t, nil), linked(t), t.TempDir()
	o := fromFolder(root)
	o.Exports = []client.ExportEntry{{Type: "local", OutputDir: to}}
	state := llb.Scratch().File(llb.Copy(llb.Local("context"), "/modules", "/"))
	if _, err := d.Solve(context.Background(), marshal(t, state), o, nil); err != nil {
		t.Fatal(err)
	}
	if target, err := os.Readlink(filepath.Join(to, "modules/.bin/tool")); target != "../tool/cli.js" {
		t.Error(target, err)
	}
	var image buffer
	o = fromFolder(root)
	o.Exports = []client.ExportEntry{toTar("oci", &image, map[string]string{"compression": "uncompressed"})}
	if _, err := d.Solve(context.Background(), marshal(t, state), o, nil); err != nil {
		t.Fatal(err)
	}
	for r := tar.NewReader(bytes.NewReader(image.Bytes())); ; {
		h, err := r.Next()
		if err != nil {
			t.Fatal("no layer has the link: ", err)
		}
		data, err := io.ReadAll(r)
		if err != nil {
			t.Fatal(err)
		}
		if strings.HasPrefix(h.Name, "blobs/") && data[0] != '{' {
			if got := listed(t, data); !strings.Contains(got, "0777 0:0 modules/.bin/tool -> ../tool/cli.js\n") {
				t.Error(got)
			}
			return
		}
	}
}

func call(base llb.State, folder string, words ...string) llb.State {
	return base.Run(llb.Args(words), llb.Dir("/"+folder)).Root()
}

// Each of these is what BuildKit makes: it follows links in parents, in a source that is selected, and in a dest.
func TestALinkThatBuildKitFollowsIsResolvedByTheTrees(t *testing.T) {
	d, root := started(t, func(o *Options) { o.Strict = true }), linked(t)
	context := llb.Local("context")
	etc := llb.Scratch().File(llb.Copy(context, "/etc", "/"))
	selector := llb.AddMount("/m", context, llb.SourcePath("/etc/current"), llb.Readonly)
	follow, wild := &llb.CopyInfo{FollowSymlinks: true}, &llb.CopyInfo{FollowSymlinks: true, AllowWildcard: true}
	at := etc.Run(llb.Args([]string{"cp", "/etc/real/m/cli.js", "/etc/z"}), llb.Dir("/"),
		llb.AddMount("/etc/current/m", context, llb.SourcePath("/modules/tool"), llb.Readonly)).Root()
	const real = "0755 0:0 etc/ \"\"\n0777 0:0 etc/current -> real\n0755 0:0 etc/real/ \"\"\n0644 0:0 etc/real/conf \"conf\"\n"
	for name, one := range map[string]struct {
		state llb.State
		want  string
	}{
		"a selected link":    {llb.Scratch().File(llb.Copy(context, "/modules/.bin/tool", "/t", follow)), "0644 0:0 t \"cli\"\n"},
		"its name":           {llb.Scratch().File(llb.Copy(context, "/modules/.bin/tool", "/", follow)), "0644 0:0 tool \"cli\"\n"},
		"a link as it is":    {llb.Scratch().File(llb.Copy(context, "/dangling", "/t")), "0777 0:0 t -> missing\n"},
		"a parent":           {llb.Scratch().File(llb.Copy(context, "/etc/current/conf", "/t")), "0644 0:0 t \"conf\"\n"},
		"an absolute target": {llb.Scratch().File(llb.Copy(context, "/absolute/conf", "/t")), "0644 0:0 t \"conf\"\n"},
		"a match":            {llb.Scratch().File(llb.Copy(context, "/modules/.bin/*", "/", wild)), "0644 0:0 tool \"cli\"\n"},
		"a dest":             {etc.File(llb.Copy(context, "/data", "/etc/current/")), real + "0644 0:0 etc/real/data \"data\"\n"},
		"an mkfile":          {etc.File(llb.Mkfile("/etc/current/new", 0o600, nil)), real + "0600 0:0 etc/real/new \"\"\n"},
		"an mkdir":           {etc.File(llb.Mkdir("/etc/current/new", 0o700)), real + "0700 0:0 etc/real/new/ \"\"\n"},
		"a selector":         {llb.Scratch().Run(llb.Args([]string{"cp", "/m/conf", "/t"}), llb.Dir("/"), selector).Root(), "0644 0:0 t \"conf\"\n"},
		"a call":             {call(etc, "", "cp", "/etc/current/conf", "/etc/z"), real + "0644 0:0 etc/z \"conf\"\n"},
		"a call with a dir":  {call(etc, "/etc/current", "cp", "conf", "../z"), real + "0644 0:0 etc/z \"conf\"\n"},
		"a dest of a mount":  {at, real + "0644 0:0 etc/z \"cli\"\n"},
		"an rm":              {etc.File(llb.Rm("/etc/current/conf")), strings.Replace(real, "0644 0:0 etc/real/conf \"conf\"\n", "", 1)},
	} {
		got, err := d.solved(t, one.state, fromFolder(root))
		if err != nil || got != one.want {
			t.Errorf("%s: %q, not %q: %v", name, got, one.want, err)
		}
	}
}

// What BuildKit would follow on trees that are known only once llbm has run is refused, by the path and the link.
func TestALinkThatCanNotBeResolvedIsRefused(t *testing.T) {
	d, root := started(t, nil), linked(t)
	context := llb.Local("context")
	etc := llb.Scratch().File(llb.Copy(context, "/etc", "/"))
	run := call(etc, "", "write", "/out", "x")
	selected := llb.Scratch().Run(llb.Args([]string{"true"}), llb.Dir("/"), llb.AddMount("/m", run, llb.SourcePath("/etc/current"), llb.Readonly)).Root()
	const through = " leads through the symbolic link /etc/current, which llbm does not follow"
	for name, one := range map[string]struct {
		state llb.State
		want  string
	}{
		"a dest":            {run.File(llb.Copy(context, "/data", "/etc/current/")), "action 0: /etc/current" + through},
		"an mkfile":         {run.File(llb.Mkdir("/a", 0o755).Mkfile("/etc/current/new", 0o600, nil)), "action 1: /etc/current/new" + through},
		"a call":            {call(run, "", "cp", "/etc/current/conf", "/out"), "command 0: /etc/current/conf" + through},
		"a call with a dir": {call(run, "etc", "cp", "current/conf", "/out"), "command 0: /etc/current/conf" + through},
		"a directory":       {call(run, "etc/current", "true"), "the working directory /etc/current" + through},
		"a selector":        {selected, "mount 1: the selector /etc/current" + through},
		"a cp to a link": {call(etc.File(llb.Copy(context, "/modules", "/")), "", "cp", "/etc/real/conf", "/modules/.bin/tool"),
			"command 0: /modules/.bin/tool leads through the symbolic link /modules/.bin/tool, which llbm does not follow"},
		"another call": {call(run, "", "rm", "/etc/current"), ""},
		"another path": {run.File(llb.Copy(context, "/data", "/etc/real/")), ""},
	} {
		_, err := d.solved(t, one.state, fromFolder(root))
		if (err != nil) != (one.want != "") || err != nil && !strings.Contains(err.Error(), "llbm: "+one.want) {
			t.Errorf("%s: %v", name, err)
		}
	}
	d = started(t, func(o *Options) { o.Rules = as(t, dyingName) })
	_, err := d.solved(t, etc, fromFolder(root))
	if err == nil || !strings.Contains(err.Error(), "a source has symbolic links, and whether BuildKit would follow one is not known: not all was compared") {
		t.Error(err)
	}
}

func TestAResultsLinksAreFollowedWhereAFrontendReads(t *testing.T) {
	d, root := started(t, nil), linked(t)
	_, err := d.Build(context.Background(), fromFolder(root), "", func(ctx context.Context, c gwclient.Client) (*gwclient.Result, error) {
		def := marshal(t, llb.Scratch().File(llb.Copy(llb.Local("context"), "/", "/", &llb.CopyInfo{CopyDirContentsOnly: true})))
		result, err := c.Solve(ctx, gwclient.SolveRequest{Definition: def.ToPB()})
		if err != nil {
			return nil, err
		}
		ref, err := result.SingleRef()
		if err != nil {
			return nil, err
		}
		data, err := ref.ReadFile(ctx, gwclient.ReadRequest{Filename: "/modules/.bin/tool"})
		if string(data) != "cli" {
			t.Errorf("%q %v", data, err)
		}
		entries, err := ref.ReadDir(ctx, gwclient.ReadDirRequest{Path: "/etc/current"})
		if len(entries) != 1 || entries[0].Path != "conf" {
			t.Error(entries, err)
		}
		entries, err = ref.ReadDir(ctx, gwclient.ReadDirRequest{Path: "/", IncludePattern: "dang*"})
		if len(entries) != 1 || entries[0].Linkname != "missing" || entries[0].Size_ != 7 || os.FileMode(entries[0].Mode)&os.ModeSymlink == 0 {
			t.Error(entries, err)
		}
		if stat, err := ref.StatFile(ctx, gwclient.StatRequest{Path: "/absolute/conf"}); err != nil || stat.Size_ != 4 {
			t.Error(stat, err)
		}
		if _, err := ref.StatFile(ctx, gwclient.StatRequest{Path: "/dangling"}); err == nil {
			t.Error("a link that leads nowhere was found")
		}
		return result, nil
	}, nil)
	if err != nil {
		t.Error(err)
	}
}

// archived returns a tar of one file.
func archived(t *testing.T) string {
	t.Helper()
	var made bytes.Buffer
	to := tar.NewWriter(&made)
	if err := to.WriteHeader(&tar.Header{Name: "f", Mode: 0o600}); err != nil {
		t.Fatal(err)
	}
	if err := to.Close(); err != nil {
		t.Fatal(err)
	}
	return made.String()
}

func TestWhatLLBMDoesNotTakeOfAFileOpGoesByTheTrees(t *testing.T) {
	d := started(t, func(o *Options) { o.Strict = true })
	root := directory(t, map[string]string{
		"etc/passwd": "root:x:0:0::/:\nnode:x:1000:1001::/:\n", "etc/group": "staff:x:50:\n",
		"app/a.js": "a", "app/a_test.js": "t", "app/lib/b.js": "b", "app/lib/b_test.js": "t", "plain.txt": "plain", "a.tar": archived(t),
	})
	context := llb.Local("context")
	base := llb.Scratch().File(llb.Copy(context, "/etc", "/"))
	run := base.Run(llb.Args([]string{"write", "/out", "x"}), llb.Dir("/")).Root()
	staged := base.File(llb.Copy(context, "/a.tar", "/"))
	all := llb.CopyInfo{AllowWildcard: true, AllowEmptyWildcard: true, CreateDestPath: true, CopyDirContentsOnly: true, FollowSymlinks: true}
	with := func(change func(*llb.CopyInfo)) *llb.CopyInfo {
		one := all
		change(&one)
		return &one
	}
	without := with(func(c *llb.CopyInfo) { c.ExcludePatterns = []string{"**/*_test.js"} })
	parents := with(func(c *llb.CopyInfo) { c.IncludePatterns = []string{"app/lib/b.js"} })
	unpack := with(func(c *llb.CopyInfo) { c.AttemptUnpack = true })
	owner := func(name string) *llb.CopyInfo {
		return with(func(c *llb.CopyInfo) { llb.WithUser(name).SetCopyOption(c) })
	}
	const etc = "0755 0:0 etc/ \"\"\n0644 0:0 etc/group \"staff:x:50:\\n\"\n0644 0:0 etc/passwd \"root:x:0:0::/:\\nnode:x:1000:1001::/:\\n\"\n"
	const js = "0755 0:0 n/ \"\"\n0644 0:0 n/a.js \"a\"\n0755 0:0 n/lib/ \"\"\n0644 0:0 n/lib/b.js \"b\"\n"
	const plain = "0755 0:0 n/ \"\"\n0644 0:0 n/plain.txt \"plain\"\n"
	const parent = "0755 0:0 n/ \"\"\n0755 0:0 n/app/ \"\"\n0755 0:0 n/app/lib/ \"\"\n0644 0:0 n/app/lib/b.js \"b\"\n"
	for name, one := range map[string]struct {
		state llb.State
		want  string
		fails string
	}{
		"a name":                      {base.File(llb.Copy(context, "/plain.txt", "/p", owner("node"))), etc + "0644 1000:1001 p \"plain\"\n", ""},
		"a name and a group":          {base.File(llb.Copy(context, "/plain.txt", "/p", owner("node:staff"))), etc + "0644 1000:50 p \"plain\"\n", ""},
		"a directory's name":          {base.File(llb.Mkdir("/w", 0o755, llb.WithUser("node"))), etc + "0755 1000:1001 w/ \"\"\n", ""},
		"a name after an execution":   {run.File(llb.Copy(context, "/plain.txt", "/p", owner("node"))), "", "llbm: fault 88 "},
		"excluded":                    {llb.Scratch().File(llb.Copy(context, "/app", "/n", without)), js, ""},
		"excluded after a run":        {run.File(llb.Copy(context, "/app", "/n", without)), etc + js + "0644 0:0 out \"x\\n\"\n", ""},
		"with its parents":            {llb.Scratch().File(llb.Copy(context, "/", "/n/", parents)), parent, ""},
		"patterns of what is unknown": {llb.Scratch().File(llb.Copy(run, "/etc", "/n", without)), "", "patterns are taken only of a tree that is known"},
		"no archive":                  {llb.Scratch().File(llb.Copy(context, "/plain.txt", "/n/", unpack)), plain, ""},
		"no archive, after a run":     {run.File(llb.Copy(context, "/plain.txt", "/n/", unpack)), etc + plain + "0644 0:0 out \"x\\n\"\n", ""},
		"an archive":                  {llb.Scratch().File(llb.Copy(context, "/a.tar", "/n/", unpack)), "0755 0:0 n/ \"\"\n0600 0:0 n/f \"\"\n", ""},
		"an archive of a stage":       {llb.Scratch().File(llb.Copy(staged, "/a.tar", "/n/", unpack)), "", "an archive is unpacked only from"},
	} {
		got, err := d.solved(t, one.state, fromFolder(root))
		if (err != nil) != (one.fails != "") || err != nil && !strings.Contains(err.Error(), one.fails) || err == nil && got != one.want {
			t.Errorf("%s: %q, not %q: %v", name, got, one.want, err)
		}
	}
	literal := started(t, literally)
	if _, err := literal.solved(t, llb.Scratch().File(llb.Copy(context, "/app", "/n", without)), fromFolder(root)); err == nil {
		t.Error("patterns are taken literally")
	}
}
