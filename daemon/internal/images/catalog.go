package images

import (
	"context"
	"encoding/json"
	"errors"
	"fmt"
	"io/fs"
	"os"
	"path/filepath"
	"slices"
	"strings"

	"github.com/distribution/reference"
	digest "github.com/opencontainers/go-digest"
	ocispecs "github.com/opencontainers/image-spec/specs-go/v1"
	"google.golang.org/grpc/codes"
)

// A Catalog has the images that the daemon was given: by name, and those of folders.
type Catalog struct {
	places  map[string]string
	folders []string
}

// Set adds an image: NAME=PLACE, where PLACE is a directory, an OCI layout or an archive of one.
func (c *Catalog) Set(text string) error {
	name, place, ok := strings.Cut(text, "=")
	if !ok || name == "" || place == "" {
		return fmt.Errorf("%q is not NAME=PLACE", text)
	}
	ref, err := parse(name)
	if err != nil {
		return err
	}
	if place, err = filepath.Abs(place); err != nil {
		return err
	}
	if _, err := os.Stat(place); err != nil {
		return err
	}
	if c.places == nil {
		c.places = map[string]string{}
	}
	if _, ok := c.places[ref.String()]; ok {
		return fmt.Errorf("%s has two places", ref)
	}
	c.places[ref.String()] = place
	return nil
}

// String lists the names.
func (c *Catalog) String() string {
	if c == nil {
		return ""
	}
	var names []string
	for name := range c.places {
		names = append(names, name)
	}
	slices.Sort(names)
	return strings.Join(names, " ")
}

// A Folders is the option that adds folders of images to a catalog.
type Folders struct{ *Catalog }

// Set adds a folder of images. Its files and directories have the names of images.
func (f Folders) Set(text string) error {
	folder, err := filepath.Abs(text)
	if err != nil {
		return err
	}
	found, err := os.Stat(folder)
	if err == nil && !found.IsDir() {
		err = fmt.Errorf("%s is no folder", text)
	}
	if err != nil {
		return err
	}
	f.folders = append(f.folders, folder)
	return nil
}

// String lists the folders.
func (f Folders) String() string {
	if f.Catalog == nil {
		return ""
	}
	return strings.Join(f.folders, " ")
}

// parse reads a reference as Docker does: without a registry it is Docker's, without a tag and a digest the tag is latest.
func parse(text string) (reference.Named, error) {
	ref, err := reference.ParseNormalizedNamed(text)
	if err != nil {
		return nil, fmt.Errorf("%q is no name of an image: %w", text, err)
	}
	return reference.TagNameOnly(ref), nil
}

// Familiar returns the name of an image as a Dockerfile has it, without what is added to it by default.
func Familiar(name string) string {
	ref, err := parse(name)
	if err != nil {
		return name
	}
	if _, ok := ref.(reference.Digested); !ok && strings.HasSuffix(ref.String(), ":latest") {
		return reference.FamiliarName(ref)
	}
	return reference.FamiliarString(ref)
}

// place returns where an image is, or nothing. One that is named by a digest too can be there by its name alone.
func (c *Catalog) place(ref reference.Named) string {
	for _, one := range []reference.Named{ref, withoutDigest(ref)} {
		if place := c.places[one.String()]; place != "" {
			return place
		}
		for _, folder := range c.folders {
			if place := inside(folder, one); place != "" {
				return place
			}
		}
	}
	return ""
}

// withoutDigest returns a reference by its tag alone, which is latest if it has none.
func withoutDigest(ref reference.Named) reference.Named {
	if tagged, ok := ref.(reference.Tagged); ok {
		if short, err := reference.WithTag(reference.TrimNamed(ref), tagged.Tag()); err == nil {
			return short
		}
	}
	return reference.TagNameOnly(reference.TrimNamed(ref))
}

// inside returns the place of an image in a folder: a directory or an archive that has one of its names, with its tag or its digest. A
// directory without one may be a part of other names.
func inside(folder string, ref reference.Named) string {
	for _, name := range []string{reference.FamiliarString(ref), ref.String()} {
		for _, suffix := range []string{"", ".tar"} {
			place := filepath.Join(folder, name+suffix)
			if found, err := os.Stat(place); err == nil && (found.IsDir() == (suffix == "")) {
				return place
			}
		}
	}
	return ""
}

// Find returns the image of a name for a platform, or nil if the daemon was not given it.
func (c *Catalog) Find(ctx context.Context, name string, platform ocispecs.Platform) (*Image, error) {
	if c == nil {
		return nil, nil
	}
	ref, err := parse(name)
	if err != nil {
		return nil, refuse(name, codes.InvalidArgument, "%v", err)
	}
	place := c.place(ref)
	if place == "" {
		return nil, nil
	}
	name = Familiar(ref.String())
	found, err := os.Stat(place)
	if err != nil {
		return nil, refuse(name, codes.FailedPrecondition, "%v", err)
	}
	if found.IsDir() && !isLayout(place) {
		return ofDirectory(name, place, platform)
	}
	open := inArchive
	if found.IsDir() {
		open = inFolder
	}
	l, err := open(place)
	if err != nil {
		return nil, refuse(name, codes.InvalidArgument, "%s: %v", place, err)
	}
	image, err := l.image(ctx, name, ref, platform)
	if err != nil {
		_ = l.close()
	}
	return image, err
}

// image returns the image of a layout that a reference names.
func (l *layout) image(ctx context.Context, name string, ref reference.Named, platform ocispecs.Platform) (*Image, error) {
	top, err := l.find(ref)
	if err != nil {
		return nil, wrapped(name, err)
	}
	image, err := read(ctx, name, l, top, platform)
	if err != nil {
		return nil, err
	}
	image.close = l.close
	return image, nil
}

// InStore returns the image of a client's store that a reference names by its digest.
func InStore(ctx context.Context, name string, store Store, platform ocispecs.Platform) (*Image, error) {
	ref, err := parse(name)
	if err != nil {
		return nil, refuse(name, codes.InvalidArgument, "%v", err)
	}
	digested, ok := ref.(reference.Digested)
	if !ok {
		return nil, refuse(name, codes.InvalidArgument, "an OCI layout of a client names its image by a digest")
	}
	top := ocispecs.Descriptor{Digest: digested.Digest()}
	info, err := store.Info(ctx, top.Digest)
	if err != nil {
		return nil, wrapped(name, err)
	}
	top.Size = info.Size
	return read(ctx, name, store, top, platform)
}

// ofDirectory returns the image that a directory is. The file beside it with `.json` after its name is its configuration.
func ofDirectory(name, place string, platform ocispecs.Platform) (*Image, error) {
	given, err := os.ReadFile(place + ".json")
	if errors.Is(err, fs.ErrNotExist) {
		given, err = json.Marshal(ocispecs.Image{Platform: platform})
	}
	if err != nil {
		return nil, refuse(name, codes.FailedPrecondition, "%v", err)
	}
	config, err := withLayer(given)
	if err != nil {
		return nil, refuse(name, codes.InvalidArgument, "%s.json: %v", place, err)
	}
	return &Image{Name: name, Config: config, root: place}, nil
}

// withLayer returns the configuration of a directory, with one layer: a frontend takes an image without one for the empty image.
func withLayer(given []byte) ([]byte, error) {
	if err := json.Unmarshal(given, &ocispecs.Image{}); err != nil {
		return nil, err
	}
	var config map[string]any
	if err := json.Unmarshal(given, &config); err != nil {
		return nil, err
	}
	if config == nil {
		return nil, errors.New("it is no object")
	}
	config["rootfs"] = ocispecs.RootFS{Type: "layers", DiffIDs: []digest.Digest{digest.FromString("a directory")}}
	return json.Marshal(config)
}
