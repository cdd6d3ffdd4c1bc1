package exports

import (
	"bytes"
	"encoding/json"
	"errors"
	"io"
	"time"

	digest "github.com/opencontainers/go-digest"
	ocispecs "github.com/opencontainers/image-spec/specs-go/v1"
	"google.golang.org/grpc/codes"
	"google.golang.org/grpc/status"
)

// createdBy is the step that made a layer if the history has none.
const createdBy = "llbm"

// configOf returns an image's configuration by the rule of docs/FORMATS.md ("Images"): what the frontend gave, for a platform,
// with the digests of its layers, which steps of some names made. With isBound the image was created at the time, if it would be later.
func configOf(
	given []byte, platform ocispecs.Platform, layers []digest.Digest, names []string, when time.Time, isBound bool,
) (map[string]any, error) {
	config, err := configIn(given)
	if err != nil {
		return nil, err
	}
	for key, value := range map[string]string{"os": platform.OS, "architecture": platform.Architecture, "variant": platform.Variant} {
		if has, _ := config[key].(string); has == "" && value != "" {
			config[key] = value
		}
	}
	steps, err := stepsIn(config)
	if err != nil {
		return nil, err
	}
	created := createdOf(config, steps, when, isBound)
	config["created"] = created
	if names != nil {
		config["history"] = withLayers(steps, names, created)
	} else {
		config["history"] = withLayer(steps, created)
	}
	config["rootfs"] = map[string]any{"type": "layers", "diff_ids": layers}
	return config, nil
}

func invalid(err any) error {
	return status.Errorf(codes.InvalidArgument, "invalid image config for export: %v", err)
}

// configIn reads a configuration, without members that are null.
func configIn(given []byte) (map[string]any, error) {
	if len(given) == 0 {
		return map[string]any{}, nil
	}
	value, err := decoded(given)
	if err != nil {
		return nil, invalid(err)
	}
	config, ok := value.(map[string]any)
	if value == nil {
		return nil, status.Error(codes.InvalidArgument, "invalid null image config for export") // as BuildKit says it
	} else if !ok {
		return nil, invalid("it is no object")
	}
	dropNulls(config)
	if inner, ok := config["config"].(map[string]any); ok {
		dropNulls(inner)
	}
	return config, nil
}

// decoded reads one value of JSON. Its numbers stay texts, so they are written again as they are.
func decoded(data []byte) (any, error) {
	var value any
	decoder := json.NewDecoder(bytes.NewReader(data))
	decoder.UseNumber()
	if err := decoder.Decode(&value); err != nil {
		return nil, err
	}
	if _, err := decoder.Token(); !errors.Is(err, io.EOF) {
		return nil, errors.New("there is more than one value")
	}
	return value, nil
}

func dropNulls(members map[string]any) {
	for name, value := range members {
		if value == nil {
			delete(members, name)
		}
	}
}

// stepsIn returns the steps of a configuration's history, without members that are null.
func stepsIn(config map[string]any) ([]map[string]any, error) {
	if config["history"] == nil {
		return nil, nil
	}
	history, ok := config["history"].([]any)
	if !ok {
		return nil, invalid("history is no array of objects")
	}
	var steps []map[string]any
	for _, one := range history {
		step, ok := one.(map[string]any)
		if !ok {
			return nil, invalid("history is no array of objects")
		}
		dropNulls(step)
		steps = append(steps, step)
	}
	return steps, nil
}

// createdOf returns when an image was created: as it says itself, or with the last step that says it, or at the time.
func createdOf(config map[string]any, steps []map[string]any, when time.Time, isBound bool) string {
	text, _ := config["created"].(string)
	for n := len(steps) - 1; n >= 0 && text == ""; n-- {
		text, _ = steps[n]["created"].(string)
	}
	created, err := time.Parse(time.RFC3339Nano, text)
	if text == "" || isBound && (err != nil || created.After(when)) {
		return when.UTC().Format(time.RFC3339)
	}
	return text
}

// withLayers returns a history of the layers that steps of some names made, as BuildKit has it: steps that have made more layers than
// there are made none, and missing steps are added.
func withLayers(steps []map[string]any, names []string, created string) []any {
	history, made := []any{}, 0
	for _, step := range steps {
		if empty, _ := step["empty_layer"].(bool); !empty && made == len(names) {
			step["empty_layer"] = true
		} else if !empty {
			made++
		}
		history = append(history, step)
	}
	for _, name := range names[made:] {
		history = append(history, map[string]any{"created": created, "created_by": name, "comment": "buildkit.exporter.image.v0"})
	}
	return history
}

// withLayer returns a history of one layer: the last step that made a layer made it, and the others none.
func withLayer(steps []map[string]any, created string) []any {
	var history []any
	made := false
	for n := len(steps) - 1; n >= 0; n-- {
		step := steps[n]
		if empty, _ := step["empty_layer"].(bool); !empty && made {
			step["empty_layer"] = true
		} else if !empty {
			made = true
		}
		history = append([]any{step}, history...)
	}
	if !made {
		history = append(history, map[string]any{"created": created, "created_by": createdBy})
	}
	return history
}
