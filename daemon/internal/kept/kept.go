// Package kept keeps the last builds in a folder, so that the repository's tools can open them afterwards.
//
// FOLDER/REF/N has the N-th definition that the build REF solved, and FOLDER/REF/last is a link to the last one. In it are
// `definition`; `record`, the lines of the run's record; `N.tree`, the text of each local source's tree; `sources`, a line
// NAME=FILE for each of them; `launch.json`, which the debug adapter takes; and `error`, if it failed.
package kept

import (
	"crypto/sha256"
	"encoding/hex"
	"encoding/json"
	"errors"
	"fmt"
	"io"
	"io/fs"
	"log"
	"os"
	"path/filepath"
	"regexp"
	"slices"
	"sort"
	"strconv"
	"strings"
	"sync"
	"time"

	"github.com/moby/buildkit/solver/pb"
	"golang.org/x/sys/unix"
	"llbm/daemon/internal/messages"
)

const (
	// marker is the file by which a folder is known as one of kept builds.
	marker = "llbmd-kept-builds"
	unseen = ".new-"
	last   = "last"
)

// MostOfRecord bounds the bytes of a record that is kept.
const MostOfRecord = 64 << 20

// A Folder has the last builds, within bounds. One process at a time has it.
type Folder struct {
	lock       *os.File
	path       string
	mostBuilds int
	mostBytes  int64
	mu         sync.Mutex
	builds     []*build // the oldest first
	solving    map[string]*build
}

type build struct {
	name  string
	bytes int64
	count int
	when  time.Time
}

// Open takes a folder for kept builds: a new one, an empty one, or one that was such a folder before.
func Open(path string, mostBuilds int, mostBytes int64) (*Folder, error) {
	path, err := filepath.Abs(path)
	if err != nil {
		return nil, err
	}
	if err := os.MkdirAll(path, 0o700); err != nil {
		return nil, err
	}
	entries, err := os.ReadDir(path)
	if err != nil {
		return nil, err
	}
	if _, err := os.Stat(filepath.Join(path, marker)); errors.Is(err, fs.ErrNotExist) && len(entries) > 0 {
		return nil, fmt.Errorf("%s: is not empty, and is no folder of kept builds", path)
	}
	lock, err := locked(filepath.Join(path, marker))
	if err != nil {
		return nil, err
	}
	f := &Folder{lock: lock, path: path, mostBuilds: mostBuilds, mostBytes: mostBytes, solving: map[string]*build{}}
	if err := f.read(); err != nil {
		_ = f.Close()
		return nil, err
	}
	return f, nil
}

// locked opens a file that no other process has locked, and locks it until it is closed.
func locked(path string) (*os.File, error) {
	file, err := os.OpenFile(path, os.O_RDWR|os.O_CREATE, 0o600)
	if err != nil {
		return nil, err
	}
	if err := unix.Flock(int(file.Fd()), unix.LOCK_EX|unix.LOCK_NB); err != nil {
		_ = file.Close()
		if errors.Is(err, unix.EWOULDBLOCK) {
			return nil, fmt.Errorf("%s: another llbmd keeps its builds there", filepath.Dir(path))
		}
		return nil, fmt.Errorf("%s: %w", path, err)
	}
	return file, nil
}

// Close lets another process have the folder.
func (f *Folder) Close() error { return f.lock.Close() }

// read finds the builds that are there, and removes what a build that was not kept whole has left.
func (f *Folder) read() error {
	entries, err := os.ReadDir(f.path)
	if err != nil {
		return err
	}
	for _, entry := range entries {
		switch {
		case !entry.IsDir():
		case strings.HasPrefix(entry.Name(), unseen):
			if err := os.RemoveAll(filepath.Join(f.path, entry.Name())); err != nil {
				return err
			}
		default:
			if err := f.find(entry); err != nil {
				return err
			}
		}
	}
	sort.Slice(f.builds, func(i, j int) bool { return f.builds[i].when.Before(f.builds[j].when) })
	return f.shorten(nil)
}

// find counts what a kept build takes. An empty folder is removed: the process ended before the build was kept.
func (f *Folder) find(entry fs.DirEntry) error {
	info, err := entry.Info()
	if err != nil {
		return err
	}
	b := &build{name: entry.Name(), when: info.ModTime()}
	err = filepath.WalkDir(filepath.Join(f.path, b.name), func(_ string, entry fs.DirEntry, err error) error {
		if err != nil {
			return err
		}
		if n, err := strconv.Atoi(entry.Name()); err == nil && entry.IsDir() {
			b.count = max(b.count, n)
		}
		info, err := entry.Info()
		if err == nil && info.Mode().IsRegular() {
			b.bytes += info.Size()
		}
		return err
	})
	if err != nil {
		return err
	}
	if b.count == 0 {
		_ = os.Remove(filepath.Join(f.path, b.name)) // it fails where something is in it, which no daemon has put there
		return nil
	}
	f.builds = append(f.builds, b)
	f.solving[b.name] = b
	return nil
}

// A Source is a local source, and what writes the text of its tree.
type Source struct {
	Name  string
	Write func(to io.Writer) error
}

// A Solved is one definition of a build, with its run.
type Solved struct {
	Ref        string
	Definition []byte
	Record     []byte
	Sources    []Source
	Err        error
}

var plain = regexp.MustCompile(`^[A-Za-z0-9_-][A-Za-z0-9_.-]{0,127}$`)

// Name returns the name of the folder of a build: its ref, if this can be one.
func Name(ref string) string {
	if plain.MatchString(ref) && ref != marker {
		return ref
	}
	sum := sha256.Sum256([]byte(ref))
	return "sha256-" + hex.EncodeToString(sum[:])
}

// Keep keeps a definition that a build has solved, or logs why it can't.
func (f *Folder) Keep(s Solved, def *pb.Definition) {
	var err error
	if s.Definition, err = def.Marshal(); err == nil {
		err = f.Add(s)
	}
	if err != nil {
		log.Printf("llbmd: build %q is not kept: %s", s.Ref, messages.Of(err))
	}
}

// Add keeps what a build has solved, whole or not at all, and drops the oldest builds that are beyond the bounds. Where the disk is
// full, it drops the oldest builds until there is room, or no other build is left.
func (f *Folder) Add(s Solved) error {
	f.mu.Lock()
	defer f.mu.Unlock()
	err := f.add(s)
	for isFull(err) {
		oldest := slices.IndexFunc(f.builds, func(b *build) bool { return b.name != Name(s.Ref) })
		if oldest < 0 {
			return err
		}
		if err := f.drop(oldest); err != nil {
			return err
		}
		err = f.add(s)
	}
	return err
}

func isFull(err error) bool { return errors.Is(err, unix.ENOSPC) || errors.Is(err, unix.EDQUOT) }

func (f *Folder) add(s Solved) error {
	folder, err := os.MkdirTemp(f.path, unseen)
	if err != nil {
		return err
	}
	defer os.RemoveAll(folder)
	name := Name(s.Ref)
	b, ok := f.solving[name]
	if !ok {
		b = &build{name: name, when: time.Now()}
	}
	number := strconv.Itoa(b.count + 1)
	size, err := write(folder, filepath.Join(f.path, name, number), s)
	if err != nil {
		return err
	}
	if err := f.place(folder, name, number); err != nil {
		if !ok {
			err = errors.Join(err, os.RemoveAll(filepath.Join(f.path, name)))
		}
		return err
	}
	b.count++
	b.bytes += size
	if !ok {
		f.builds = append(f.builds, b)
		f.solving[name] = b
	}
	return f.shorten(b)
}

// place moves a folder to its place, and turns the link to the last one to it. There is a last one at each moment.
func (f *Folder) place(folder, name, number string) error {
	build := filepath.Join(f.path, name)
	if err := os.Mkdir(build, 0o700); err != nil && !errors.Is(err, fs.ErrExist) {
		return err
	}
	link := filepath.Join(folder, last)
	if err := os.Symlink(number, link); err != nil {
		return err
	}
	at := filepath.Join(build, number)
	if err := os.Rename(folder, at); err != nil {
		return err
	}
	if err := os.Rename(filepath.Join(at, last), filepath.Join(build, last)); err != nil {
		return errors.Join(err, os.RemoveAll(at))
	}
	return nil
}

// write writes what is kept into a folder that will be at another path, and returns how many bytes it has.
func write(folder, at string, s Solved) (int64, error) {
	files := map[string][]byte{"definition": s.Definition, "record": s.Record}
	if s.Err != nil {
		files["error"] = []byte(s.Err.Error() + "\n")
	}
	launch := map[string]string{}
	var lines strings.Builder
	var size int64
	for i, source := range s.Sources {
		name := fmt.Sprintf("%d.tree", i)
		launch[source.Name] = filepath.Join(at, name)
		fmt.Fprintf(&lines, "%s=%s\n", source.Name, launch[source.Name])
		n, err := writeTree(filepath.Join(folder, name), source)
		if err != nil {
			return 0, err
		}
		size += n
	}
	files["sources"] = []byte(lines.String())
	var err error
	files["launch.json"], err = json.MarshalIndent(map[string]any{"definition": filepath.Join(at, "definition"), "sources": launch}, "", "  ")
	if err != nil {
		return 0, err
	}
	for name, data := range files {
		if err := os.WriteFile(filepath.Join(folder, name), data, 0o600); err != nil {
			return 0, err
		}
		size += int64(len(data))
	}
	return size, nil
}

func writeTree(path string, source Source) (int64, error) {
	file, err := os.OpenFile(path, os.O_WRONLY|os.O_CREATE|os.O_EXCL, 0o600)
	if err != nil {
		return 0, err
	}
	err = source.Write(file)
	info, statErr := file.Stat()
	if err = errors.Join(err, statErr, file.Close()); err != nil {
		return 0, err
	}
	return info.Size(), nil
}

// shorten drops the oldest builds that are beyond the bounds, except one.
func (f *Folder) shorten(except *build) error {
	var total int64
	for _, b := range f.builds {
		total += b.bytes
	}
	for len(f.builds) > 0 && (len(f.builds) > f.mostBuilds || total > f.mostBytes) {
		b := f.builds[0]
		if b == except && len(f.builds) > 1 {
			f.builds[0], f.builds[1] = f.builds[1], f.builds[0]
			continue
		}
		if err := f.drop(0); err != nil {
			return err
		}
		total -= b.bytes
	}
	return nil
}

// drop removes a build.
func (f *Folder) drop(i int) error {
	b := f.builds[i]
	if err := os.RemoveAll(filepath.Join(f.path, b.name)); err != nil {
		return err
	}
	f.builds = slices.Delete(f.builds, i, i+1)
	delete(f.solving, b.name)
	return nil
}
