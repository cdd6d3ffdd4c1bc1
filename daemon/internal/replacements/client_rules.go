package replacements

import (
	"context"
	"strings"

	"github.com/moby/buildkit/solver/pb"
	"google.golang.org/grpc/codes"
	"google.golang.org/grpc/status"
	"llbm/daemon/internal/builds"
	"llbm/daemon/internal/machine"
	"llbm/daemon/internal/printable"
	"llbm/daemon/internal/sources"
	"llbm/daemon/internal/standins"
)

// The options by which a client asks for stand-ins: a local source with rules, which docker buildx calls a context, and executions
// that do nothing.
const (
	keyRules   = "llbm:rules"
	keyContext = "context:llbm-rules"
	keyRun     = "llbm:run"
)

// Ask lets executions of a build have the stand-ins that options of its client or of a frontend ask for.
func Ask(ctx context.Context, b *builds.Build, options map[string]string) error {
	var set standins.Set
	switch options[keyRun] {
	case "", "refuse":
	case "skip":
		set.Skips = true
	default:
		return status.Errorf(codes.InvalidArgument, "%s=%s: it is skip or refuse", keyRun, options[keyRun])
	}
	name, isLocal := strings.CutPrefix(options[keyContext], "local:")
	if options[keyRules] != "" {
		name, isLocal = options[keyRules], true
	}
	if name != "" && !isLocal {
		return status.Errorf(codes.InvalidArgument, "%s=%s: the rules are in a directory", keyContext, options[keyContext])
	}
	if name != "" {
		var err error
		if set.Rules, err = clientRules(ctx, b, name); err != nil {
			return err
		}
	}
	b.AddStandIns(set)
	return nil
}

// readRules reads rules of a client, whose new words have to be scripts.
func readRules(ctx context.Context, program *machine.Program, data []byte) ([]standins.Rule, error) {
	rules, err := standins.Read(data)
	if err != nil {
		return nil, err
	}
	return rules, standins.Set{Rules: rules}.Check(ctx, program)
}

// clientRules returns the rules that a client sends: of the files *.rules of a local source, in the order of their names.
func clientRules(ctx context.Context, b *builds.Build, name string) ([]standins.Rule, error) {
	source := &pb.SourceOp{Identifier: sources.Scheme + name, Attrs: map[string]string{pb.AttrIncludePatterns: `["*.rules"]`}}
	request, err := sources.RequestOf(source)
	if err != nil {
		return nil, err
	}
	caller, err := b.Shared.Sessions.Get(ctx, b.User, b.Session)
	if err != nil {
		return nil, err
	}
	manifest, err := b.Shared.Keeper.Fetch(ctx, b.User, caller, sources.Transfer{Request: request, Anew: true, Hold: b.Hold})
	if err != nil {
		return nil, err
	}
	defer manifest.Drop()
	if manifest.Bytes > standins.MostBytes {
		return nil, status.Errorf(codes.ResourceExhausted, "the rules of local source %s have more than %d bytes", name, standins.MostBytes)
	}
	var rules []standins.Rule
	files := 0
	for _, entry := range manifest.Entries {
		if entry.Dir {
			continue
		}
		files++
		data := make([]byte, entry.Content.Size)
		if _, err := entry.Content.ReadAt(data, 0); err != nil && len(data) > 0 {
			return nil, err
		}
		read, err := readRules(ctx, b.Shared.Program, data)
		if err != nil {
			return nil, status.Errorf(codes.InvalidArgument, "the rules of local source %s: %s: %v", name, printable.Of(entry.Path), err)
		}
		rules = append(rules, read...)
	}
	if files == 0 {
		return nil, status.Errorf(codes.InvalidArgument, "local source %s has no file *.rules", name)
	}
	return rules, nil
}
