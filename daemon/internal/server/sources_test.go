package server

import (
	"context"
	"errors"
	"io"
	"io/fs"
	"strings"
	"sync"
	"sync/atomic"
	"testing"
	"unicode/utf8"

	controlapi "github.com/moby/buildkit/api/services/control"
	"github.com/moby/buildkit/client"
	"github.com/moby/buildkit/client/llb"
	"github.com/moby/buildkit/solver/errdefs"
	"github.com/tonistiigi/fsutil"
	fstypes "github.com/tonistiigi/fsutil/types"
	"google.golang.org/grpc/codes"
	"google.golang.org/grpc/status"
	"llbm/daemon/internal/sources"
)

// A folder is a client's directory, whose files are what a test says of them: their contents are the Data of each.
type folder struct {
	files []file
	walks *atomic.Int64
	fault error // what walking it ends with
}

type file struct {
	fstypes.Stat
	data string
}

// before is a time with a part below the second, long ago.
const before = 1_500_000_000_123_456_789

// of is a file of some content, last changed long ago.
func of(path, data string) file {
	return file{fstypes.Stat{Path: path, Mode: 0o644, Size_: int64(len(data)), ModTime: before}, data}
}

func (f folder) Walk(_ context.Context, _ string, to fs.WalkDirFunc) error {
	if f.walks != nil {
		f.walks.Add(1)
	}
	for i := range f.files {
		stat := f.files[i].Stat
		if err := to(stat.Path, &fsutil.DirEntryInfo{Stat: &stat}, nil); err != nil {
			return err
		}
	}
	return f.fault
}

func (f folder) Open(path string) (io.ReadCloser, error) {
	for _, one := range f.files {
		if one.Path == path {
			return io.NopCloser(strings.NewReader(one.data)), nil
		}
	}
	return nil, fs.ErrNotExist
}

// followed builds a state of the local source `context`, and returns the archive, the bytes that were sent of the source, the log, and
// the short texts of the warnings.
func (d *daemon) followed(t *testing.T, state llb.State, from folder, key string) (archive string, sent int64, log, warned string) {
	t.Helper()
	ch := make(chan *client.SolveStatus)
	var done sync.WaitGroup
	done.Add(1)
	var lines, shorts []string
	go func() {
		defer done.Done()
		for event := range ch {
			for _, s := range event.Statuses {
				if strings.HasPrefix(s.ID, "transferring") {
					sent = max(sent, s.Current)
				}
			}
			for _, l := range event.Logs {
				lines = append(lines, string(l.Data))
			}
			for _, w := range event.Warnings {
				shorts = append(shorts, string(w.Short))
			}
		}
	}()
	var tar buffer
	o := client.SolveOpt{SharedKey: key, LocalMounts: map[string]fsutil.FS{"context": from}, Exports: []client.ExportEntry{toTar("tar", &tar, nil)}}
	_, err := d.Solve(context.Background(), marshal(t, state), o, ch)
	done.Wait()
	if err != nil {
		t.Fatal(err)
	}
	return listed(t, tar.Bytes()), sent, strings.Join(lines, ""), strings.Join(shorts, "\n")
}

// copied has a copy of the local source, and based builds on it.
func copied() llb.State { return llb.Scratch().File(llb.Copy(llb.Local("context"), "v", "/v")) }

func based() llb.State { return llb.Local("context").File(llb.Mkfile("/w", 0o644, nil)) }

func TestWithoutASharedKeyEachFileIsRead(t *testing.T) {
	d := started(t, nil)
	for _, text := range []string{"one", "two", "two"} {
		archive, sent, log, _ := d.followed(t, copied(), folder{files: []file{of("v", text)}}, "")
		if archive != "0644 0:0 v \""+text+"\"\n" || sent != 3 || log != "" {
			t.Error(archive, sent, log)
		}
	}
	if usage, err := d.DiskUsage(context.Background()); err != nil || len(usage) != 0 {
		t.Errorf("%+v %v", usage, err)
	}
}

func TestAnUnchangedFileIsNotSentAgainUnderOneSharedKey(t *testing.T) {
	d := started(t, nil)
	same, newer := []file{of("v", "same"), of("w", "old")}, []file{of("v", "same"), of("w", "newer")}
	for i, c := range []struct {
		files []file
		key   string
		sent  int64
		log   string
	}{
		{same, "key", 7, ""},
		{same, "key", 0, "local source context: 2 of its files were not read: their sizes and times are as in an earlier build\n"},
		{newer, "key", 5, "local source context: 1 of its files were not read: their sizes and times are as in an earlier build\n"},
		{newer, "other", 9, ""},
	} {
		archive, sent, log, _ := d.followed(t, copied(), folder{files: c.files}, c.key)
		if archive != "0644 0:0 v \"same\"\n" || sent != c.sent || log != c.log {
			t.Error(i, archive, sent, log)
		}
	}
	usage, err := d.DiskUsage(context.Background())
	if err != nil || len(usage) != 2 || usage[0].Size != 9 || usage[0].Description != "local source for context" || !strings.HasPrefix(usage[0].ID, "context-") {
		t.Errorf("%+v %v", usage, err)
	}
	if err := d.Prune(context.Background(), nil); err != nil {
		t.Error(err)
	}
	if usage, err := d.DiskUsage(context.Background()); err != nil || len(usage) != 0 {
		t.Errorf("%+v %v", usage, err)
	}
	if _, sent, _, _ := d.followed(t, copied(), folder{files: newer}, "key"); sent != 9 {
		t.Error(sent)
	}
}

func TestATimeThatAToolHasSetTellsNothing(t *testing.T) {
	d := started(t, nil)
	for _, text := range []string{"one", "two"} {
		v := of("v", text)
		v.ModTime = 1_500_000_000_000_000_000
		if archive, _, _, _ := d.followed(t, copied(), folder{files: []file{v}}, "key"); archive != "0644 0:0 v \""+text+"\"\n" {
			t.Error(archive)
		}
	}
}

func TestASourceThatIsABaseIsReadAnew(t *testing.T) {
	results := map[string]string{"copied": "0644 0:0 v \"%\"\n", "based": "0644 0:0 v \"%\"\n0644 0:0 w \"\"\n", "itself": "0644 0:0 v \"%\"\n"}
	states := map[string]llb.State{"copied": copied(), "based": based(), "itself": llb.Local("context")}
	for _, order := range [][]string{{"based", "based"}, {"copied", "based", "copied"}, {"itself", "itself"}, {"copied", "itself", "copied"}} {
		d := started(t, nil)
		for i, name := range order {
			text := string(rune('a' + i))
			archive, _, _, _ := d.followed(t, states[name], folder{files: []file{of("v", text)}}, "key")
			if archive != strings.ReplaceAll(results[name], "%", text) {
				t.Error(order, name, archive)
			}
		}
	}
}

func TestWhatATreeOfLlbmHasNotIsAWarningOfTheSource(t *testing.T) {
	d := started(t, nil)
	a, b, c := of("a", "x"), of("b", "y"), of("c", "z")
	a.Xattrs = map[string][]byte{"security.selinux": nil}
	b.Xattrs = map[string][]byte{"user.mine": []byte("1")}
	c.Xattrs = b.Xattrs
	want := "local source context: extended attributes are lost, which BuildKit keeps: of /b (user.mine)"
	if _, _, _, warned := d.followed(t, llb.Local("context"), folder{files: []file{a, b}}, ""); warned != want {
		t.Error(warned)
	}
	if _, _, _, warned := d.followed(t, llb.Local("context"), folder{files: []file{a, b, c}}, ""); warned != want+" and 1 more" {
		t.Error(warned)
	}
}

func TestAFileOfWhichNothingComesIsEmptyWithAWarning(t *testing.T) {
	d := started(t, nil)
	v, w := of("v", ""), of("w", "")
	v.Size_, w.Size_ = 5, 1
	want := "local source context: the client sent no byte of /v: it is empty, as in BuildKit"
	archive, sent, _, warned := d.followed(t, llb.Local("context"), folder{files: []file{v}}, "")
	if archive != "0644 0:0 v \"\"\n" || sent != 0 || warned != want {
		t.Error(archive, sent, warned)
	}
	if _, _, _, warned := d.followed(t, copied(), folder{files: []file{v, w}}, "key"); warned != want+"; so are 1 more" {
		t.Error(warned)
	}
	v = of("v", "hello")
	archive, _, _, warned = d.followed(t, copied(), folder{files: []file{v, of("w", "x")}}, "key")
	if archive != "0644 0:0 v \"hello\"\n" || warned != "" {
		t.Error(archive, warned)
	}
}

func TestASourceThatIsNotLocalIsRefusedBeforeATransfer(t *testing.T) {
	d := started(t, nil)
	for name, c := range map[string]struct {
		state llb.State
		want  string
	}{
		"a file": {llb.HTTP("https://a/b"), "(https://a/b)\nllbm has no network; fetch it before the build, and give it as a local source"},
		"an image": {
			llb.Image("docker.io/library/a"), "(docker-image://docker.io/library/a:latest)\n" + sources.Instead("docker-image://a"),
		},
	} {
		from := folder{walks: &atomic.Int64{}}
		state := llb.Merge([]llb.State{llb.Local("context"), c.state})
		_, err := d.Solve(context.Background(), marshal(t, state), client.SolveOpt{LocalMounts: map[string]fsutil.FS{"context": from}}, nil)
		if status.Code(unwrapped(err)) != codes.Unimplemented || !strings.HasSuffix(err.Error(), " Source "+c.want) {
			t.Errorf("%s: %v", name, err)
		}
		if from.walks.Load() > 0 {
			t.Errorf("%s: the local source was asked for", name)
		}
	}
}

func TestTextsOfClientsThatAreNotUTF8AreShown(t *testing.T) {
	d := started(t, nil)
	for name, c := range map[string]struct {
		state llb.State
		code  codes.Code
		want  string
	}{
		"an error of a source": {llb.Local("context"), codes.Unknown, "no \uFFFD way"},
		"a path of an action":  {llb.Scratch().File(llb.Rm("/\xff")), codes.InvalidArgument, "(rm /\uFFFD)"},
	} {
		ch := make(chan *client.SolveStatus)
		var done sync.WaitGroup
		done.Add(1)
		go func() {
			defer done.Done()
			for event := range ch {
				for _, v := range event.Vertexes {
					if !utf8.ValidString(v.Name) || !utf8.ValidString(v.Error) {
						t.Errorf("%s: %q %q", name, v.Name, v.Error)
					}
				}
			}
		}()
		from := folder{fault: errors.New("no \xff way")}
		_, err := d.Solve(context.Background(), marshal(t, c.state), client.SolveOpt{LocalMounts: map[string]fsutil.FS{"context": from}}, ch)
		done.Wait()
		var vertex *errdefs.VertexError
		if status.Code(unwrapped(err)) != c.code || !strings.Contains(err.Error(), c.want) || !errors.As(err, &vertex) {
			t.Errorf("%s: %v, of %v", name, err, vertex)
		}
	}
}

func TestARefIsBounded(t *testing.T) {
	d := started(t, nil)
	for _, ref := range []string{strings.Repeat("x", 257), "\xff"} {
		_, err := d.ControlClient().Solve(context.Background(), &controlapi.SolveRequest{Ref: ref})
		if status.Code(err) != codes.InvalidArgument || !strings.Contains(err.Error(), "is no ref of a build") {
			t.Error(err)
		}
	}
}
