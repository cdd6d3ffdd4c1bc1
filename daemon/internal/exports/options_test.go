package exports

import (
	"fmt"
	"strings"
	"testing"

	controlapi "github.com/moby/buildkit/api/services/control"
	"github.com/moby/buildkit/client/llb"
	ocispecs "github.com/opencontainers/image-spec/specs-go/v1"
	"google.golang.org/grpc/codes"
	"google.golang.org/grpc/status"
	"llbm/daemon/internal/results"
)

// asked returns an exporter oci with options.
func asked(t *testing.T, attrs map[string]string) *Exporter {
	t.Helper()
	e, err := New(0, &controlapi.Exporter{Type: "oci", Attrs: attrs}, nil)
	if err != nil {
		t.Fatal(err)
	}
	return e
}

func exporterOf(kind string, attrs map[string]string) *controlapi.Exporter {
	return &controlapi.Exporter{Type: kind, Attrs: attrs}
}

func TestNamesAreThoseOfBuildKit(t *testing.T) {
	const digest = "@sha256:0123456789012345678901234567890123456789012345678901234567890123"
	for name, want := range map[string][2]string{
		"a":             {"docker.io/library/a:latest", "latest"},
		"a:1":           {"docker.io/library/a:1", "1"},
		"user/a":        {"docker.io/user/a:latest", "latest"},
		"host:5000/a":   {"host:5000/a:latest", "latest"},
		"host:5000/a:b": {"host:5000/a:b", "b"},
		"a" + digest:    {"docker.io/library/a" + digest, digest},
	} {
		i := &image{e: asked(t, map[string]string{"name": name})}
		var err error
		if i.names, err = i.e.image.names(nil); err != nil || len(i.names) != 1 || i.names[0] != want[0] {
			t.Errorf("%s: %q %v", name, i.names, err)
			continue
		}
		got := i.index(ocispecs.Descriptor{Annotations: map[string]string{}}).Manifests[0].Annotations
		if got["io.containerd.image.name"] != want[0] || got[ocispecs.AnnotationRefName] != want[1] {
			t.Errorf("%s: %v", name, got)
		}
	}
	several, err := asked(t, map[string]string{"name": "a,b:2"}).image.names(nil)
	if err != nil || strings.Join(several, " ") != "docker.io/library/a:latest docker.io/library/b:2" {
		t.Error(several, err)
	}
	whole := asked(t, map[string]string{"name": "*"})
	if names, err := whole.image.names(map[string][]byte{"image.name": []byte("a")}); err != nil || len(names) != 1 {
		t.Error(names, err)
	}
	if names, err := whole.image.names(nil); err != nil || names != nil {
		t.Error(names, err)
	}
}

func TestOptionsOfImagesThatCantBeDoneAreRefused(t *testing.T) {
	for attrs, want := range map[string]string{
		"name=UPPER":           "InvalidArgument exporter oci: failed to parse UPPER: invalid reference format: repository name (library/UPPER) must be lowercase",
		"name=a,":              "InvalidArgument exporter oci: failed to parse : invalid reference format",
		"oci-mediatypes=maybe": `InvalidArgument exporter oci: non-bool value specified for oci-mediatypes: strconv.ParseBool: parsing "maybe": invalid syntax`,
		"tar=maybe":            `InvalidArgument exporter oci: non-bool value specified for tar: strconv.ParseBool: parsing "maybe": invalid syntax`,
		"compression=estargz":  "Unimplemented exporter oci: the option compression=estargz",
		"compression-level=x":  "InvalidArgument exporter oci: non-integer value x specified for compression-level",
		"compression-level=10": "InvalidArgument exporter oci: compression-level=10: of gzip it is -2 to 9",
		"annotation-layer.a":   "InvalidArgument exporter oci: annotation-layer.a: unrecognized annotation type layer",
		"rewrite-timestamp=2":  `InvalidArgument exporter oci: non-bool value specified for rewrite-timestamp: strconv.ParseBool: parsing "2": invalid syntax`,
		"force-compression=x":  `InvalidArgument exporter oci: non-bool value specified for force-compression: strconv.ParseBool: parsing "x": invalid syntax`,
	} {
		key, value, _ := strings.Cut(attrs, "=")
		_, err := New(0, &controlapi.Exporter{Type: "oci", Attrs: map[string]string{key: value}}, nil)
		if got := fmt.Sprint(status.Code(err), " ", status.Convert(err).Message()); got != want {
			t.Errorf("%s: %s", attrs, got)
		}
	}
	if _, err := New(0, &controlapi.Exporter{Type: "tar", Attrs: map[string]string{"name": "a"}}, nil); status.Code(err) != codes.Unimplemented {
		t.Error(err)
	}
	_, err := New(0, &controlapi.Exporter{Type: "docker", Attrs: map[string]string{"tar": "false"}}, nil)
	if status.Convert(err).Message() != "exporter docker: the option tar=false is of oci alone" {
		t.Error(err)
	}
	asked(t, map[string]string{"tar": "1", "compression": "gzip", "force-compression": "true", "oci-mediatypes": "", "rewrite-timestamp": "true"})
}

func TestAnImageThatCanNotBeStoredOrPushedSaysTheWay(t *testing.T) {
	_, err := New(0, &controlapi.Exporter{Type: "image", Attrs: map[string]string{"push": "true"}}, nil)
	first, next, _ := strings.Cut(status.Convert(err).Message(), "\n")
	if first != `exporter "image": llbmd has local, tar, oci and docker` || !strings.Contains(next, "`skopeo copy oci-archive:FILE docker://NAME` pushes it") {
		t.Error(err)
	}
}

func TestMediaTypesAreDockersIfTheyAreAskedFor(t *testing.T) {
	g := given{root + "f 0644 0 0 61 /a\n", "{}", ""}
	for value, want := range map[string][]string{
		"false": {"docker.distribution.manifest.v2+json", "docker.container.image.v1+json", "docker.image.rootfs.diff.tar\""},
		"true":  {"oci.image.manifest.v1+json", "oci.image.config.v1+json", "oci.image.layer.v1.tar\""},
	} {
		data := string(g.image(t, map[string]string{"oci-mediatypes": value}))
		for _, one := range want {
			if !strings.Contains(data, one) {
				t.Errorf("oci-mediatypes=%s: no %s", value, one)
			}
		}
		if !strings.Contains(data, `{"schemaVersion":2,"mediaType":"application/vnd.oci.image.index.v1+json"`) {
			t.Error("index.json is of another type") // BuildKit's is of this type too
		}
	}
}

func TestSeveralLayersOfBuildKitAreCounted(t *testing.T) {
	def, err := llb.Scratch().File(llb.Mkfile("/a", 0o600, nil)).File(llb.Mkfile("/b", 0o600, nil)).Marshal(t.Context())
	if err != nil {
		t.Fatal(err)
	}
	one := named{result: &results.Result{Def: def.ToPB()}}
	for given, want := range map[string]int{
		"": 2, "{}": 2, `{"history":[{},{"empty_layer":true}]}`: 1, `{"history":[{},{},{"empty_layer":true},{"empty_layer":false}]}`: 3,
	} {
		if got, err := layers(one, []byte(given)); err != nil || got != want {
			t.Errorf("%q: %d %v", given, got, err)
		}
	}
	if got, err := layers(named{result: &results.Result{}}, nil); err != nil || got != 0 {
		t.Error(got, err)
	}
}
