package sources

import (
	"time"

	fstypes "github.com/tonistiigi/fsutil/types"
	"google.golang.org/grpc/codes"
	"google.golang.org/grpc/status"
	"llbm/daemon/internal/contents"
)

// An Add takes the next entry of a source, in path order, with its content, which is in the source's pack.
type Add func(st *fstypes.Stat, content contents.Ref) error

// Collect makes a manifest of entries that no client sends, by the rules and within the bounds of those that one sends. The pack is
// the manifest's then, which the caller has to drop; if Collect fails it is dropped.
func Collect(pack *contents.Pack, options Options, each func(add Add) error) (*Manifest, error) {
	r := &receiver{
		Options: options, pack: pack, parents: []string{""},
		manifest: &Manifest{Name: options.Name, began: time.Now(), packs: map[*contents.Pack]bool{pack: true}},
	}
	err := each(func(st *fstypes.Stat, content contents.Ref) error {
		r.given = &content
		r.manifest.Sent += content.Size
		return r.stat(st)
	})
	if err != nil {
		r.manifest.Drop()
		return nil, err
	}
	r.finish()
	return r.manifest, nil
}

// CheckCounts refuses more entries, or more bytes of paths, than a source may have.
func CheckCounts(entries, paths int) error {
	switch {
	case entries > mostEntries:
		return status.Errorf(codes.ResourceExhausted, "more than %d entries", mostEntries)
	case paths > mostOfPaths:
		return status.Errorf(codes.ResourceExhausted, "its paths have more than %d bytes", mostOfPaths)
	}
	return nil
}
