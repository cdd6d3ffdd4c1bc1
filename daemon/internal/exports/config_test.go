package exports

import (
	"encoding/json"
	"testing"
	"time"

	digest "github.com/opencontainers/go-digest"
	ocispecs "github.com/opencontainers/image-spec/specs-go/v1"
)

var amd64 = ocispecs.Platform{OS: "linux", Architecture: "amd64"}

func TestConfigurationsHaveTheirLayer(t *testing.T) {
	then := time.Date(2015, 10, 21, 7, 28, 0, 0, time.UTC)
	const when = `"2015-10-21T07:28:00Z"`
	const one = `"os":"linux","rootfs":{"diff_ids":["sha256:1"],"type":"layers"}}`
	made := func(created string) string {
		return `{"architecture":"amd64","created":` + created + `,"history":[{"created":` + created + `,"created_by":"llbm"}],` + one
	}
	for name, c := range map[string]struct {
		given   string
		isBound bool
		want    string
	}{
		"nothing":            {"", false, made(when)},
		"a later time":       {`{"created":"2020-01-01T00:00:00Z"}`, true, made(when)},
		"a time that is its": {`{"created":"2020-01-01T00:00:00Z"}`, false, made(`"2020-01-01T00:00:00Z"`)},
		"an earlier time":    {`{"created":"2010-01-01T00:00:00Z"}`, true, made(`"2010-01-01T00:00:00Z"`)},
		"two steps that made layers": {
			`{"config":{"User":"a"},"history":[{"created_by":"COPY"},{"created_by":"ENV","empty_layer":true},{"created":"2011-01-01T00:00:00Z"}]}`, false,
			`{"architecture":"amd64","config":{"User":"a"},"created":"2011-01-01T00:00:00Z","history":[{"created_by":"COPY","empty_layer":true},` +
				`{"created_by":"ENV","empty_layer":true},{"created":"2011-01-01T00:00:00Z"}],` + one,
		},
	} {
		config, err := configOf([]byte(c.given), amd64, []digest.Digest{"sha256:1"}, nil, then, c.isBound)
		if err != nil {
			t.Errorf("%s: %v", name, err)
			continue
		}
		got, err := json.Marshal(config)
		if err != nil || string(got) != c.want {
			t.Errorf("%s: %s, not %s", name, got, c.want)
		}
	}
	for _, given := range []string{"null", "[]", "{", `{"history":{}}`, `{"history":[1]}`} {
		if _, err := configOf([]byte(given), amd64, nil, nil, then, false); err == nil {
			t.Errorf("%s was taken", given)
		}
	}
}

func TestAHistoryHasAStepForEachLayer(t *testing.T) {
	made, then := []string{"one", "two"}, time.Date(2015, 10, 21, 7, 28, 0, 0, time.UTC)
	const two = `{"comment":"buildkit.exporter.image.v0","created":"2015-10-21T07:28:00Z","created_by":"two"}]`
	for given, want := range map[string]string{
		`[]`: `[{"comment":"buildkit.exporter.image.v0","created":"2015-10-21T07:28:00Z","created_by":"one"},` + two,
		`[{"created_by":"a"},{"created_by":"b","empty_layer":true}]`: `[{"created_by":"a"},{"created_by":"b","empty_layer":true},` + two,
		`[{"created_by":"a"},{"created_by":"b"}]`:                    `[{"created_by":"a"},{"created_by":"b"}]`,
		`[{"created_by":"a"},{"created_by":"b"},{"created_by":"c"}]`: `[{"created_by":"a"},{"created_by":"b"},{"created_by":"c","empty_layer":true}]`,
	} {
		config, err := configOf([]byte(`{"history":`+given+`}`), amd64, nil, made, then, false)
		if err != nil {
			t.Fatal(err)
		}
		got, err := json.Marshal(config["history"])
		if err != nil || string(got) != want {
			t.Errorf("%s: %s", given, got)
		}
	}
}
