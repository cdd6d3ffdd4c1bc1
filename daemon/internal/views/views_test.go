package views

import (
	"errors"
	"fmt"
	"io/fs"
	"math/rand"
	"os"
	"path/filepath"
	"regexp"
	"slices"
	"strings"
	"syscall"
	"testing"

	"github.com/moby/buildkit/solver/pb"
	"llbm/daemon/internal/rules"
	"llbm/daemon/internal/tree"
)

// treeOf returns a tree of lines: `PATH/`, `PATH` or `PATH -> TARGET`, in path order.
func treeOf(lines ...string) *rules.Node {
	var known []rules.Given
	made := tree.Tree{{Dir: true, Mode: 0o755}}
	for i, line := range lines {
		path, target, isLink := strings.Cut(line, " -> ")
		one := tree.Entry{Path: strings.TrimSuffix(path, "/"), Dir: strings.HasSuffix(path, "/"), Mode: 0o755}
		if isLink {
			token := []byte{0xff, byte(i)}
			known, one.Content = append(known, rules.Given{Token: token, Target: []byte(target)}), token
		}
		made = append(made, one)
	}
	return rules.Reader{Known: rules.KnownOf(known)}.Of(made)
}

var (
	system = treeOf("bin -> usr/bin", "dir/", "dir/other -> ../usr/lib", "gone -> missing/x", "lib -> /usr/lib", "loop -> loop", "mnt/", "out -> dir",
		"usr/", "usr/bin/", "usr/bin/sh -> tool", "usr/bin/tool", "usr/lib/", "usr/lib/a b", "usr/lib/space -> a b")
	volume = treeOf("data/", "data/up -> ../../dir", "here -> /mnt/data")
)

func run(args ...string) *pb.ExecOp {
	mounts := []*pb.Mount{{Input: 0, Dest: "/"}, {Input: 1, Dest: "/mnt"}, {Input: -1, Dest: "/tmp", MountType: pb.MountType_TMPFS}}
	return &pb.ExecOp{Meta: &pb.Meta{Args: args, Cwd: "/"}, Mounts: mounts}
}

func shell(text string) *pb.ExecOp { return run("/bin/sh", "-c", text) }

func resolved(exec *pb.ExecOp, trees ...*rules.Node) (*pb.ExecOp, []Way) {
	return Resolve(exec, func(mount *pb.Mount) *rules.Node {
		if mount.Input < 0 {
			return rules.Empty()
		}
		return trees[mount.Input]
	})
}

func wordsOf(exec *pb.ExecOp) string { return strings.Join(exec.Meta.Args, " ") }

// Each call works on the paths to which a kernel would follow its words.
func TestWordsOfCallsLeadThroughNoLink(t *testing.T) {
	for text, want := range map[string]string{
		"write /lib/b x":                           "write /usr/lib/b x",
		"write lib/b x":                            "write /usr/lib/b x",
		"write /usr/lib/b x":                       "write /usr/lib/b x",
		"append /bin/sh x":                         "append /usr/bin/tool x",
		"write /gone x":                            "write /missing/x x",
		"cp /bin/tool /tmp/":                       "cp /usr/bin/tool /tmp/",
		"cp /bin/sh /tmp":                          "cp /usr/bin/tool /tmp/sh",
		"cp /bin/sh /tmp/t":                        "cp /usr/bin/tool /tmp/t",
		"cp /bin/sh /out":                          "cp /usr/bin/tool /dir/sh",
		"cp /bin/tool /out":                        "cp /usr/bin/tool /dir",
		"mkdir /out":                               "mkdir /out",
		"mkdir /out/x":                             "mkdir /dir/x",
		"mkdir -p /out":                            "mkdir -p /dir",
		"mkdir -p /gone/y":                         "mkdir -p /gone/y",
		"mkdir -p /out/other/y":                    "mkdir -p /usr/lib/y",
		"rm /out":                                  "rm /out",
		"rm /out/other":                            "rm /dir/other",
		"chmod 700 /out":                           "chmod 700 /dir",
		"test -e /lib/b":                           "test -e /usr/lib/b",
		"concat /tmp/o /bin/sh /lib/x":             "concat /tmp/o /usr/bin/tool /usr/lib/x",
		"listing /out /lib/l":                      "listing /dir /usr/lib/l",
		"sha256 /bin/sh /lib/s":                    "sha256 /usr/bin/tool /usr/lib/s",
		"envfile /lib/env":                         "envfile /usr/lib/env",
		"write /mnt/here/f x":                      "write /mnt/data/f x",
		"write /mnt/data/up/f x":                   "write /dir/f x",
		"write /lib/../f x":                        "write /usr/f x",
		"write /dir/../f x":                        "write /dir/../f x",
		"true":                                     "true",
		"rm /out && mkdir /out":                    "rm /out && mkdir /out",
		"rm /out && mkdir /out && cp /bin/sh /out": "rm /out && mkdir /out && cp /usr/bin/tool /out/sh",
		"rm /usr && write /lib/x y":                "rm /usr && write /usr/lib/x y",
		"mkdir /tmp/d && cp /bin/sh /tmp/d && rm /tmp/d":       "mkdir /tmp/d && cp /usr/bin/tool /tmp/d/sh && rm /tmp/d",
		"mkdir -p /tmp/d/e && cp /bin/sh /tmp/d/e":             "mkdir -p /tmp/d/e && cp /usr/bin/tool /tmp/d/e/sh",
		"write  /lib/b x  ;  write /out/c y || true":           "write  /usr/lib/b x  ;  write /dir/c y || true",
		"rm /dir/other ; write /lib/x y":                       "rm /dir/other ; write /usr/lib/x y",
		"cp /bin/sh /tmp/a && cp /bin/sh /tmp/a && write /a x": "cp /usr/bin/tool /tmp/a && cp /usr/bin/tool /tmp/a && write /a x",
	} {
		now, ways := resolved(shell(text), system, volume)
		if got := now.Meta.Args[2]; got != want {
			t.Errorf("%s: %s, not %s", text, got, want)
		}
		for _, one := range ways {
			if one.To == "" {
				t.Errorf("%s: %v is left", text, one)
			}
		}
		if again, ways := resolved(now, system, volume); len(ways) > 0 || wordsOf(again) != wordsOf(now) {
			t.Errorf("%s: %v once more", text, ways)
		}
	}
}

// Where a call depends on more than on where its words lead, its words are left, and so is what comes after it.
func TestWordsAreLeftWhereItIsNotKnownWhatACallDoes(t *testing.T) {
	for text, want := range map[string]string{
		"write /loop x":                           "/loop through /loop",
		"write /loop/x y && write /lib/x y":       "/loop/x through /loop",
		"write /gone/../x y":                      "/x through /gone",
		"write /missing/../out/x y":               "/out/x through /out",
		"cp /usr/bin/tool /usr/bin/sh":            "/usr/bin/sh through /usr/bin/sh",
		"cp /usr/bin/tool /gone":                  "/gone through /gone",
		"write /usr/lib/space x":                  "/usr/lib/space through /usr/lib/space",
		"rm /out/":                                "/out through /out",
		"rm /out ; write /out/x y":                "/out/x through /out",
		"rm /out || write /out/x y":               "/out/x through /out",
		"true ; mkdir /tmp/d ; cp /bin/sh /tmp/d": "/tmp/d through /bin",
		"mkdir -p /tmp/sh && cp /bin/sh /tmp":     "/tmp through /bin",
	} {
		now, ways := resolved(shell(text), system, volume)
		last := Way{}
		if len(ways) > 0 {
			last = ways[len(ways)-1]
		}
		if got := last.Path + " through " + last.Link; got != want || last.To != "" || now.Meta.Args[2] != text {
			t.Errorf("%s: %s, %q, not %s: %s", text, got, last.To, want, now.Meta.Args[2])
		}
	}
	spaced, ways := resolved(run("write", "/usr/lib/space", "x"), system, volume)
	if got := wordsOf(spaced); got != "write /usr/lib/a b x" || len(ways) != 1 {
		t.Error(got, ways)
	}
}

func TestMountsAndTheDirectoryLeadThroughNoLink(t *testing.T) {
	exec := run("write", "x", "y")
	exec.Meta.Cwd = "/out/m/up"
	exec.Mounts = append(exec.Mounts, &pb.Mount{Input: 1, Dest: "/out/m", Selector: "/here/.."}, &pb.Mount{Input: 1, Dest: "/lib/m", Selector: "data/up/.."})
	exec.Mounts[3].Selector = "/data"
	now, ways := resolved(exec, system, volume)
	if now.Mounts[3].Dest != "/dir/m" || now.Mounts[4].Dest != "/usr/lib/m" || now.Mounts[4].Selector != "data/up/.." || now.Meta.Cwd != "/dir" || len(ways) != 3 {
		t.Error(now.Mounts, now.Meta.Cwd, ways)
	}
	if exec.Mounts[3].Dest != "/out/m" || exec.Meta.Cwd != "/out/m/up" {
		t.Error("the execution itself was changed")
	}
	if _, ways := resolved(now, system, volume); len(ways) > 0 {
		t.Error(ways)
	}
	exec.Mounts[4].Dest = "/usr/self" // a link to /usr, which is hidden then
	own := treeOf("usr/", "usr/lib/", "usr/self -> .", "out -> usr/lib")
	if _, ways := resolved(exec, own, volume); ways[len(ways)-1].Path != "/usr/self" || ways[len(ways)-1].To != "" {
		t.Error(ways)
	}
	exec.Mounts[4].Dest = "/dir/m" // where the other one is
	if _, ways := resolved(exec, system, volume); ways[len(ways)-1].To != "" {
		t.Error(ways)
	}
}

// A tree that is not known has no links that are known; what leads into it from a known one is replaced.
func TestWhatIsKnownOfSomeTreesIsUsed(t *testing.T) {
	for text, want := range map[string]string{
		"write /lib/b x": "write /lib/b x", "write /mnt/here/f x": "write /mnt/data/f x", "write /mnt/data/up/lib/f x": "write /dir/lib/f x",
		"cp /mnt/data/up /out": "cp /mnt/data/up /out",
	} {
		now, _ := resolved(shell(text), nil, volume)
		if got := now.Meta.Args[2]; got != want {
			t.Errorf("%s: %s, not %s", text, got, want)
		}
	}
}

// randomTree makes a directory of directories, files and links, and returns the lines of its tree.
func randomTree(t *testing.T, random *rand.Rand, root string) []string {
	t.Helper()
	var lines []string
	targets := []string{"a", "b", "/a", "/b/c", "..", "../a", "/", "a/b", "../../b/..", "/c/../a", "missing", ".", "./b/", "../c/a"}
	var add func(string, int)
	add = func(at string, depth int) {
		for _, name := range []string{"a", "b", "c"} {
			path := at + name
			place := filepath.Join(root, path)
			var err error
			switch kind := random.Intn(5); {
			case kind == 0:
			case kind == 1:
				lines, err = append(lines, path), os.WriteFile(place, nil, 0o644)
			case kind == 2 || depth == 2:
				target := targets[random.Intn(len(targets))]
				lines = append(lines, path+" -> "+target)
				if strings.HasPrefix(target, "/") {
					target = root + target
				}
				err = os.Symlink(target, place)
			default:
				lines, err = append(lines, path+"/"), os.Mkdir(place, 0o755)
				add(path+"/", depth+1)
			}
			if err != nil {
				t.Fatal(err)
			}
		}
	}
	add("", 0)
	return lines
}

// What is there is found where a kernel finds it, which leads no path of the tree out of its root.
func TestAPathLeadsToWhereAKernelFollowsIt(t *testing.T) {
	random := rand.New(rand.NewSource(5))
	found, absent := 0, 0
	for number := range 60 {
		root, err := filepath.EvalSymlinks(t.TempDir())
		if err != nil {
			t.Fatal(err)
		}
		lines := randomTree(t, random, root)
		v := &view{mounts: []mounted{{tree: treeOf(lines...)}}}
		for range 40 {
			var names []string
			for range 1 + random.Intn(4) {
				names = append(names, []string{"a", "b", "c", "a", "b", "c", "..", "missing"}[random.Intn(8)])
			}
			text := strings.Join(names, "/")
			to, err := v.follow(nil, text, true)
			is, kernels := filepath.EvalSymlinks(root + "/" + text)
			if kernels == nil && !strings.HasPrefix(is+"/", root+"/") {
				continue // a root has nothing above it
			}
			switch {
			case kernels == nil && (err != nil || filepath.Join(append([]string{root}, to.names...)...) != is):
				t.Errorf("case %d: %s leads to %s, not to %v: %v\n%s", number, text, is, to.names, err, strings.Join(lines, "\n"))
			case kernels == nil:
				found++
			case errors.Is(kernels, fs.ErrNotExist) || errors.Is(kernels, syscall.ENOTDIR):
				absent++
			}
		}
	}
	if got := fmt.Sprint(found > 500, absent > 200); got != "true true" {
		t.Error(found, absent)
	}
}

// The applets of the program are those of its specification, whose parameters say which words of a call are paths.
func TestEachAppletHasTheWordsThatAreItsPaths(t *testing.T) {
	working, err := os.Getwd()
	if err == nil {
		working, err = filepath.EvalSymlinks(working) // it may be below a link
	}
	if err != nil {
		t.Fatal(err)
	}
	specs := func(name string) string {
		data, err := os.ReadFile(filepath.Join(working, "../../../crates/llb_applet/specs", name))
		if err != nil {
			t.Fatal(err)
		}
		return string(data)
	}
	forms, found := specs("Calls.antt"), map[string]bool{}
	for _, match := range regexp.MustCompile(`(?m)^name_of (\w+) = codes "(\w+)"$`).FindAllStringSubmatch(specs("Applets.antt"), -1) {
		name := match[2]
		one, isKnown := applets[name]
		found[name] = true
		form := regexp.MustCompile(`(?m)^form ` + match[1] + ` ws = (?:no_words|(?:one_word|two_words) ws \(λ ([a-z ]+)\.|option_or|concat_of)`).
			FindStringSubmatch(forms)
		if !isKnown || form == nil {
			t.Errorf("%s is an applet of the program: known %v, its form %q", name, isKnown, form)
			continue
		}
		for i, parameter := range strings.Fields(form[1]) {
			isPath := slices.Contains([]string{"path", "out", "from", "to"}, parameter)
			if _, is := one.role(i + 1); is != isPath && one.does == nil {
				t.Errorf("%s: word %d is %s, and a path: %v", name, i+1, parameter, is)
			}
		}
	}
	for name := range applets {
		if !found[name] {
			t.Errorf("%s is no applet of the program", name)
		}
	}
}
