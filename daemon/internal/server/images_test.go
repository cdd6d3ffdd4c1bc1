package server

import (
	"archive/tar"
	"bytes"
	"context"
	"errors"
	"fmt"
	"io"
	"os"
	"path/filepath"
	"strings"
	"testing"

	"github.com/containerd/containerd/content"
	"github.com/containerd/containerd/content/local"
	"github.com/moby/buildkit/client"
	"github.com/moby/buildkit/client/llb"
	"github.com/moby/buildkit/client/llb/sourceresolver"
	"github.com/moby/buildkit/exporter/containerimage/exptypes"
	gwclient "github.com/moby/buildkit/frontend/gateway/client"
	spb "github.com/moby/buildkit/sourcepolicy/pb"
	"google.golang.org/grpc/codes"
	"google.golang.org/grpc/status"
	"llbm/daemon/internal/images"
)

// baseImage builds an image with the file /a and an environment, and returns its archive and its digest.
func baseImage(t *testing.T, d *daemon) ([]byte, string) {
	t.Helper()
	def := marshal(t, llb.Scratch().File(llb.Mkdir("/etc", 0o750)).File(llb.Mkfile("/etc/a", 0o604, []byte("hi"), llb.WithUIDGID(3, 4))))
	var archive buffer
	o := client.SolveOpt{Exports: []client.ExportEntry{toTar("oci", &archive, nil)}}
	response, err := d.Build(t.Context(), o, "", func(ctx context.Context, c gwclient.Client) (*gwclient.Result, error) {
		result, err := c.Solve(ctx, gwclient.SolveRequest{Definition: def.ToPB()})
		if err == nil {
			result.AddMeta(exptypes.ExporterImageConfigKey, []byte(`{"os":"linux","architecture":"amd64","config":{"Env":["A=b"],"WorkingDir":"/etc"}}`))
		}
		return result, err
	}, nil)
	if err != nil {
		t.Fatal(err)
	}
	return archive.Bytes(), response.ExporterResponse[exptypes.ExporterImageDigestKey]
}

// unpackedLayout writes the files of an archive into a folder.
func unpackedLayout(t *testing.T, archive []byte) string {
	t.Helper()
	folder := t.TempDir()
	for r := tar.NewReader(bytes.NewReader(archive)); ; {
		h, err := r.Next()
		if errors.Is(err, io.EOF) {
			return folder
		}
		path := filepath.Join(folder, h.Name)
		data, readErr := io.ReadAll(r)
		if err = errors.Join(err, readErr, os.MkdirAll(filepath.Dir(path), 0o755), os.WriteFile(path, data, 0o644)); err != nil {
			t.Fatal(err)
		}
	}
}

// withImages starts a daemon with images NAME=PLACE.
func withImages(t *testing.T, given ...string) *daemon {
	t.Helper()
	return started(t, func(o *Options) {
		o.Images = &images.Catalog{}
		for _, one := range given {
			if err := o.Images.Set(one); err != nil {
				t.Fatal(err)
			}
		}
	})
}

const ofBase = "0750 0:0 etc/ \"\"\n0604 3:4 etc/a \"hi\"\n"

func TestAnImageIsASource(t *testing.T) {
	archive, digest := baseImage(t, started(t, nil))
	folder := unpackedLayout(t, archive)
	file := filepath.Join(t.TempDir(), "base.tar")
	if err := os.WriteFile(file, archive, 0o600); err != nil {
		t.Fatal(err)
	}
	d := withImages(t, "layout:1="+folder, "file="+file)
	store, err := local.NewStore(folder)
	if err != nil {
		t.Fatal(err)
	}
	o := client.SolveOpt{OCIStores: map[string]content.Store{"store": store}}
	for _, base := range []llb.State{
		llb.Image("layout:1"), llb.Image("file@" + digest), llb.Image("docker.io/library/file:latest"),
		llb.OCILayout("any/name@"+digest, llb.OCIStore("", "store")),
	} {
		got, err := d.solved(t, base.File(llb.Mkfile("/etc/b", 0o600, nil)), o)
		if want := ofBase + "0600 0:0 etc/b \"\"\n"; err != nil || got != want {
			t.Errorf("%s%v", got, err)
		}
	}
	both := llb.Merge([]llb.State{llb.Image("layout:1"), llb.Scratch().File(llb.Copy(llb.Image("file"), "/etc/a", "/b")), llb.Local("layout")})
	o.LocalDirs = map[string]string{"layout": directory(t, map[string]string{"c": "local"})}
	got, err := d.solved(t, both, o)
	if want := "0604 3:4 b \"hi\"\n0644 0:0 c \"local\"\n" + ofBase; err != nil || got != want {
		t.Errorf("%s%v", got, err)
	}
}

func TestAnImageIsKeptByItsDigest(t *testing.T) {
	archive, _ := baseImage(t, started(t, nil))
	folder := unpackedLayout(t, archive)
	d := withImages(t, "base="+folder)
	copied := llb.Scratch().File(llb.Copy(llb.Image("base"), "/etc/a", "/b"))
	for n := range 2 {
		if got, err := d.solved(t, copied, client.SolveOpt{}); err != nil || got != "0604 3:4 b \"hi\"\n" {
			t.Errorf("%s%v", got, err)
		}
		usage, err := d.DiskUsage(t.Context())
		if err != nil || len(usage) != 1 || usage[0].Description != "image base" || usage[0].UsageCount != n {
			t.Errorf("%+v %v", usage, err)
		}
	}
}

func TestTheConfigurationOfAnImageIsResolved(t *testing.T) {
	archive, digest := baseImage(t, started(t, nil))
	folder := unpackedLayout(t, archive)
	d := withImages(t, "base="+folder)
	resolve := func(ref string, o sourceresolver.Opt, policy *spb.Policy) (got string, err error) {
		_, err = d.Build(t.Context(), client.SolveOpt{SourcePolicy: policy}, "", func(ctx context.Context, c gwclient.Client) (*gwclient.Result, error) {
			name, d, config, err := c.ResolveImageConfig(ctx, ref, o)
			got = fmt.Sprint(name, " ", d, " ", strings.Contains(string(config), `"WorkingDir":"/etc"`))
			return gwclient.NewResult(), err
		}, nil)
		return got, err
	}
	want := "docker.io/library/base:latest " + digest + " true"
	if got, err := resolve("docker.io/library/base:latest", sourceresolver.Opt{}, nil); err != nil || got != want {
		t.Error(got, err)
	}
	policy := &spb.Policy{Version: 1, Rules: []*spb.Rule{{
		Action: spb.PolicyAction_CONVERT, Selector: &spb.Selector{Identifier: "docker-image://docker.io/library/other:*", MatchType: spb.MatchType_WILDCARD},
		Updates: &spb.Update{Identifier: "docker-image://docker.io/library/base:latest"},
	}}}
	if got, err := resolve("docker.io/library/other:1", sourceresolver.Opt{}, policy); err != nil || got != want {
		t.Error(got, err)
	}
	_, err := resolve("docker.io/library/other:1", sourceresolver.Opt{}, nil)
	if status.Code(unwrapped(err)) != codes.Unimplemented {
		t.Error(err)
	}
	for _, way := range []string{
		"asks no registry", "--build-context other:1=DIRECTORY", "other:1=oci-layout://DIRECTORY", "-image other:1=DIRECTORY", "-images FOLDER", "a source policy",
	} {
		if err == nil || !strings.Contains(err.Error(), way) {
			t.Errorf("no %s: %v", way, err)
		}
	}
}

func TestAClientThatHasNotTheImageIsToldSo(t *testing.T) {
	store, err := local.NewStore(t.TempDir())
	if err != nil {
		t.Fatal(err)
	}
	d := started(t, nil)
	missing := "base@sha256:" + strings.Repeat("0", 64)
	o := client.SolveOpt{OCIStores: map[string]content.Store{"store": store}}
	_, err = d.solved(t, llb.OCILayout(missing, llb.OCIStore("", "store")), o)
	if status.Code(unwrapped(err)) != codes.NotFound || !strings.Contains(err.Error(), "image base@sha256:0000") {
		t.Error(err)
	}
	if _, err = d.solved(t, llb.OCILayout(missing, llb.OCIStore("", "other")), o); !strings.Contains(fmt.Sprint(err), "unknown store oci:other") {
		t.Error(err)
	}
}
