package exports

import (
	"encoding/json"
	"io"

	"github.com/moby/buildkit/util/staticfs"
	digest "github.com/opencontainers/go-digest"
	"github.com/opencontainers/image-spec/specs-go"
	ocispecs "github.com/opencontainers/image-spec/specs-go/v1"
	"github.com/tonistiigi/fsutil"
	fstypes "github.com/tonistiigi/fsutil/types"
	"llbm/daemon/internal/provenance"
)

// provenanceFile is the name of the file with the provenance in a directory, before its suffix.
const provenanceFile = "provenance"

// files are those of a result and, if it is asked for, its provenance, in a file with a suffix in its name.
func (e *Exporter) files(one named, suffix string, watch Watch) (fsutil.FS, error) {
	all := files{one.result, e.when, watch.Moved}
	if e.Provenance == nil {
		return all, nil
	}
	subjects, err := all.subjects()
	if err != nil {
		return nil, err
	}
	data, err := provenance.Of(*e.Provenance, one.result.Def, subjects)
	if err != nil {
		return nil, err
	}
	more := staticfs.NewFS()
	more.Add(provenanceFile+suffix+".json", fstypes.Stat{Mode: 0o600, ModTime: e.when.UnixNano()}, append(data, '\n'))
	return staticfs.NewMergeFS(all, more), nil
}

// subjects are the files of a result.
func (f files) subjects() ([]provenance.Subject, error) {
	var out []provenance.Subject
	for i := range f.result.Tree {
		e := &f.result.Tree[i]
		if e.Dir {
			continue
		}
		content, err := f.result.Contents.Content(e.Content)
		if err != nil {
			return nil, err
		}
		f.moved()
		digester := digest.Canonical.Digester()
		if _, err := io.Copy(digester.Hash(), content.Reader(0, -1)); err != nil {
			return nil, err
		}
		out = append(out, provenance.SubjectOf(e.Path, digester.Digest()))
	}
	return out, nil
}

// attest adds the manifests of the attestations of images, in BuildKit's form: each has the provenance as its one layer.
func (i *image) attest(list []named, manifests []ocispecs.Descriptor) ([]ocispecs.Descriptor, error) {
	var out []ocispecs.Descriptor
	for n, one := range list {
		var subjects []provenance.Subject
		for _, name := range i.names {
			subjects = append(subjects, provenance.SubjectOf(provenance.Package("docker", name, &one.Platform.Platform), manifests[n].Digest))
		}
		if subjects == nil {
			subjects = []provenance.Subject{provenance.SubjectOf("_", manifests[n].Digest)}
		}
		data, err := provenance.Of(*i.e.Provenance, one.result.Def, subjects)
		if err != nil {
			return nil, err
		}
		manifest, err := i.attestation(data)
		if err != nil {
			return nil, err
		}
		manifest.Platform = &ocispecs.Platform{OS: "unknown", Architecture: "unknown"}
		manifest.Annotations = map[string]string{
			"vnd.docker.reference.type": "attestation-manifest", "vnd.docker.reference.digest": manifests[n].Digest.String(),
		}
		out = append(out, manifest)
	}
	return out, nil
}

// attestation adds the manifest of an attestation.
func (i *image) attestation(statement []byte) (ocispecs.Descriptor, error) {
	layer, layerBlob, err := described(provenance.MediaType, json.RawMessage(statement))
	if err != nil {
		return layer, err
	}
	layer.Annotations = map[string]string{"in-toto.io/predicate-type": provenance.PredicateType}
	config, configBlob, err := described(i.e.image.types.config, map[string]any{
		"architecture": "unknown", "os": "unknown", "config": map[string]any{},
		"rootfs": ocispecs.RootFS{Type: "layers", DiffIDs: []digest.Digest{layer.Digest}},
	})
	if err != nil {
		return config, err
	}
	manifest, manifestBlob, err := described(i.e.image.types.manifest, ocispecs.Manifest{
		Versioned: specs.Versioned{SchemaVersion: 2}, MediaType: i.e.image.types.manifest, Config: config, Layers: []ocispecs.Descriptor{layer},
	})
	i.blobs = append(i.blobs, manifestBlob, configBlob, layerBlob)
	return manifest, err
}
