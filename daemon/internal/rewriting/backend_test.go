package rewriting

import (
	"context"
	"errors"
	"io/fs"
	"math/rand"
	"os"
	"path/filepath"
	"strings"
	"syscall"
	"testing"

	"github.com/containerd/containerd/mount"
	"github.com/docker/docker/pkg/idtools"
	"github.com/moby/buildkit/cache"
	"github.com/moby/buildkit/session"
	"github.com/moby/buildkit/snapshot"
	"github.com/moby/buildkit/solver/llbsolver/file"
	"github.com/moby/buildkit/solver/llbsolver/ops/fileoptypes"
	"github.com/moby/buildkit/solver/pb"
	fsutil "github.com/tonistiigi/fsutil/copy"
	"llbm/daemon/internal/cases"
	"llbm/daemon/internal/rules"
	"llbm/daemon/internal/tree"
)

// A folder is a directory that BuildKit's file backend works on, in place of a snapshot.
type folder struct {
	cache.MutableRef
	path string
}

func (f *folder) Mount(context.Context, bool, session.Group) (snapshot.Mountable, error) {
	return bind(f.path), nil
}

type bind string

func (b bind) Mount() ([]mount.Mount, func() error, error) {
	return []mount.Mount{{Type: "bind", Source: string(b)}}, func() error { return nil }, nil
}

func (b bind) IdentityMapping() *idtools.IdentityMapping { return nil }

// A manager makes one folder.
type manager struct {
	cache.Manager
	folder *folder
}

func (m manager) New(context.Context, cache.ImmutableRef, session.Group, ...cache.RefOption) (cache.MutableRef, error) {
	return m.folder, nil
}

// put makes a tree in a directory that is there.
func put(t *testing.T, folder string, n *rules.Node) {
	t.Helper()
	entries := n.Tree()
	check := func(err error) {
		if err != nil {
			t.Fatal(err)
		}
	}
	for _, one := range entries {
		place := filepath.Join(folder, one.Path)
		if target, ok := targets[string(one.Content)]; ok {
			check(os.Symlink(target, place))
		} else if !one.Dir {
			check(os.WriteFile(place, one.Content, 0o600))
		} else if one.Path != "" {
			check(os.Mkdir(place, 0o700))
		}
	}
	for i := len(entries) - 1; i >= 0; i-- {
		place := filepath.Join(folder, entries[i].Path)
		check(os.Lchown(place, int(entries[i].UID), int(entries[i].GID)))
		if _, isLink := targets[string(entries[i].Content)]; !isLink {
			check(syscall.Chmod(place, entries[i].Mode))
		}
	}
}

// taken returns the tree in a directory, none if it is gone.
func taken(t *testing.T, folder string) *rules.Node {
	t.Helper()
	var found tree.Tree
	err := filepath.WalkDir(folder, func(place string, _ fs.DirEntry, err error) error {
		if err != nil {
			return err
		}
		var stat syscall.Stat_t
		if err := syscall.Lstat(place, &stat); err != nil {
			return err
		}
		one := tree.Entry{
			Path: strings.TrimPrefix(strings.TrimPrefix(place, folder), "/"), Dir: stat.Mode&syscall.S_IFMT == syscall.S_IFDIR,
			Mode: stat.Mode & 0o7777, UID: stat.Uid, GID: stat.Gid,
		}
		switch stat.Mode & syscall.S_IFMT {
		case syscall.S_IFREG:
			one.Content, err = os.ReadFile(place)
		case syscall.S_IFLNK:
			var target string
			target, err = os.Readlink(place)
			one.Content = tokenOf(target)
		}
		found = append(found, one)
		return err
	})
	if errors.Is(err, fs.ErrNotExist) {
		return nil
	}
	if err != nil {
		t.Fatal(err)
	}
	return withLinks.Of(found)
}

// user returns what BuildKit's reader of owners makes of numbers.
func user(given *pb.ChownOpt, _, _ snapshot.Mountable) (*fsutil.User, error) {
	user, group, ok := ownerOf(given)
	if !ok {
		return nil, nil
	}
	return &fsutil.User{UID: int(user), GID: int(group)}, nil
}

// byBackend returns what BuildKit's own file backend leaves of a tree, and whether the action fails.
func byBackend(t *testing.T, action *pb.FileAction, base, second *rules.Node) (*rules.Node, bool) {
	t.Helper()
	ctx, top := context.Background(), t.TempDir()
	backend, err := file.NewFileOpBackend(user)
	if err != nil {
		t.Fatal(err)
	}
	var mounts []fileoptypes.Mount
	places := []string{filepath.Join(top, "base"), filepath.Join(top, "second")}
	for i, n := range []*rules.Node{base, second} {
		if err := os.Mkdir(places[i], 0o700); err != nil {
			t.Fatal(err)
		}
		put(t, places[i], n)
		one, err := file.NewRefManager(manager{folder: &folder{path: places[i]}}, "").Prepare(ctx, nil, false, nil)
		if err != nil {
			t.Fatal(err)
		}
		mounts = append(mounts, one)
	}
	switch a := action.Action.(type) {
	case *pb.FileAction_Copy:
		err = backend.Copy(ctx, mounts[1], mounts[0], nil, nil, *a.Copy)
	case *pb.FileAction_Mkfile:
		err = backend.Mkfile(ctx, mounts[0], nil, nil, *a.Mkfile)
	case *pb.FileAction_Mkdir:
		err = backend.Mkdir(ctx, mounts[0], nil, nil, *a.Mkdir)
	case *pb.FileAction_Rm:
		err = backend.Rm(ctx, mounts[0], *a.Rm)
	}
	if err != nil {
		return nil, true
	}
	return taken(t, places[0]), false
}

// backendMakes fails the test if BuildKit's file backend makes something else of an action than its rules say. It returns whether the
// action fails.
func backendMakes(t *testing.T, number int, action *pb.FileAction, base, second *rules.Node) bool {
	t.Helper()
	want, err := rules.Act(context.Background(), action, base, second, rules.All)
	if errors.Is(err, rules.ErrHost) {
		return true // it depends on what is on this host
	}
	got, failed := byBackend(t, action, base, second)
	if failed != (err != nil) || !failed && !rules.Equal(got, want) {
		lines, _ := rules.Differences(context.Background(), got, want, 9)
		t.Errorf("case %d: %v: fails %v, by its rules: %v %v", number, action, failed, err, lines)
	}
	return failed
}

// leads is whether BuildKit would remove the folder around.
func leads(action *pb.FileAction) bool {
	rm := action.GetRm()
	return rm != nil && !rm.AllowWildcard && filepath.Base(filepath.Clean(rm.Path)) == ".."
}

func TestBuildKitsFileBackendFollowsLinksAndTakesPatternsAsItsRulesSay(t *testing.T) {
	if os.Geteuid() != 0 {
		t.Skip("only root can change owners")
	}
	before := syscall.Umask(0)
	defer syscall.Umask(before)
	random := rand.New(rand.NewSource(7))
	fails, followed := 0, 0
	for number := range cases.Of(200) {
		base, second := randomLinks(random), randomLinks(random)
		action := randomAction(random, number%2 == 0, base, second)
		if leads(action) {
			continue
		}
		if c := action.GetCopy(); c != nil {
			c.FollowSymlink = flag(random)
			if random.Intn(3) == 0 {
				c.IncludePatterns, c.ExcludePatterns = randomPatterns(random), randomPatterns(random)
			}
		}
		if backendMakes(t, number, action, base, second) {
			fails++
		}
		all, err := rules.Act(context.Background(), action, base, second, rules.All)
		plain, plainErr := rules.Act(context.Background(), action, base, second, rules.All&^rules.Followed)
		if (err == nil) != (plainErr == nil) || err == nil && !rules.Equal(all, plain) {
			followed++
		}
	}
	if fails > cases.Of(150) || followed < cases.Of(10) {
		t.Errorf("%d fail, %d follow a link", fails, followed)
	}
}

func TestBuildKitsFileBackendMakesWhatItsRulesSay(t *testing.T) {
	if os.Geteuid() != 0 {
		t.Skip("only root can change owners")
	}
	before := syscall.Umask(0)
	defer syscall.Umask(before)
	random := rand.New(rand.NewSource(4))
	fails := 0
	for number := range cases.Of(600) {
		base, second := randomTree(random), randomTree(random)
		action := randomAction(random, number%2 == 0, base, second)
		if !leads(action) && backendMakes(t, number, action, base, second) {
			fails++
		}
	}
	t.Logf("%d fail", fails)
}

// BuildKit looks for what is below a directory at the place that it is copied to, also where patterns take none of it.
func TestBuildKitsFileBackendLooksBelowAFileForWhatIsNotTaken(t *testing.T) {
	if os.Geteuid() != 0 {
		t.Skip("only root can change owners")
	}
	before := syscall.Umask(0)
	defer syscall.Umask(before)
	file := rules.Of(tree.Tree{{Dir: true, Mode: 0o755}, {Path: "a", Mode: 0o644}})
	empty := rules.Of(tree.Tree{{Dir: true, Mode: 0o755}, {Path: "a", Dir: true, Mode: 0o755}, {Path: "b", Mode: 0o644}})
	full := rules.Of(tree.Tree{{Dir: true, Mode: 0o755}, {Path: "a", Dir: true, Mode: 0o755}, {Path: "a/f", Mode: 0o644}, {Path: "b", Mode: 0o644}})
	for number, is := range []struct {
		second           *rules.Node
		include, exclude []string
		fails            bool
	}{
		{empty, []string{"b"}, nil, false}, {full, []string{"b"}, nil, true}, {full, nil, []string{"a"}, true}, {full, []string{"missing"}, nil, true},
		{empty, nil, []string{"a"}, false}, {empty, []string{"a"}, nil, true},
	} {
		action := copyOf(nil, nil, keptMode, nil)
		action.GetCopy().DirCopyContents, action.GetCopy().IncludePatterns, action.GetCopy().ExcludePatterns = true, is.include, is.exclude
		if failed := backendMakes(t, number, action, file, is.second); failed != is.fails {
			t.Errorf("case %d: fails %v", number, failed)
		}
	}
}
