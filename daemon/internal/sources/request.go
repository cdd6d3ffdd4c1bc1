package sources

import (
	"encoding/json"
	"fmt"
	"net/url"
	"strings"
	"unicode"

	"github.com/moby/buildkit/solver/pb"
	"google.golang.org/grpc/codes"
	"google.golang.org/grpc/metadata"
	"google.golang.org/grpc/status"
	"llbm/daemon/internal/messages"
)

// Scheme is what the identifiers of local sources begin with.
const Scheme = "local://"

// A Request is for one local source: a name with the client's filters.
type Request struct {
	Name             string
	Include, Exclude []string
	Follow           []string
	SharedKeyHint    string
	ByMetadata       bool // whether a file with the same metadata as before may be taken as unchanged
	filters          string
}

// IsLocal is whether a source is one that clients send.
func IsLocal(op *pb.SourceOp) bool { return strings.HasPrefix(op.GetIdentifier(), Scheme) }

// Instead returns what can be done where a source that is not local is refused.
func Instead(identifier string) string {
	kind, name, _ := strings.Cut(identifier, "://")
	switch kind {
	case "docker-image", "oci-layout":
		name = familiar(name)
		return fmt.Sprintf(
			"llbm asks no registry; the image can be docker buildx's --build-context %s=DIRECTORY or %s=oci-layout://DIRECTORY, "+
				"llbmd's -image %s=DIRECTORY or -images FOLDER, or what a source policy converts it to", name, name, name)
	case "http", "https", "git":
		return "llbm has no network; fetch it before the build, and give it as a local source"
	}
	return "only local sources are there"
}

// familiar returns the name of an image as a Dockerfile has it, without what is added to it by default.
func familiar(name string) string {
	return strings.TrimSuffix(strings.TrimPrefix(strings.TrimPrefix(name, "docker.io/"), "library/"), ":latest")
}

// RequestOf reads the identifier and the attributes of a local source's op.
func RequestOf(op *pb.SourceOp) (Request, error) {
	name := strings.TrimPrefix(op.Identifier, Scheme)
	r := Request{Name: name, SharedKeyHint: op.Attrs[pb.AttrSharedKeyHint], ByMetadata: true}
	switch op.Attrs[pb.AttrLocalDiffer] {
	case "", pb.AttrLocalDifferMetadata:
	case pb.AttrLocalDifferNone:
		r.ByMetadata = false
	default:
		return r, status.Errorf(codes.InvalidArgument, "local source %s: %s is %q", name, pb.AttrLocalDiffer, op.Attrs[pb.AttrLocalDiffer])
	}
	for attr, to := range map[string]*[]string{
		pb.AttrIncludePatterns: &r.Include, pb.AttrExcludePatterns: &r.Exclude, pb.AttrFollowPaths: &r.Follow,
	} {
		text := op.Attrs[attr]
		if text == "" {
			continue
		}
		if err := json.Unmarshal([]byte(text), to); err != nil {
			return r, status.Errorf(codes.InvalidArgument, "local source %s: %s: %v", name, attr, err)
		}
	}
	filters, err := json.Marshal([][]string{r.Include, r.Exclude, r.Follow})
	r.filters = string(filters)
	return r, err
}

// words returns what the source is, for a person.
func (r Request) words() string {
	words := "local source for " + r.Name
	for _, one := range []struct {
		what     string
		patterns []string
	}{{"include", r.Include}, {"exclude", r.Exclude}, {"follow", r.Follow}} {
		if len(one.patterns) > 0 {
			words += ", " + one.what + " " + strings.Join(one.patterns, " ")
		}
	}
	if len(words) > mostOfDescription {
		words = words[:mostOfDescription] + ".."
	}
	return messages.Text(words)
}

// headers are what the client's end reads its filters from. What is not ASCII is escaped, as newer clients expect it.
func (r Request) headers() metadata.MD {
	md := metadata.Pairs("dir-name", r.Name)
	if !isASCII([]string{r.Name}) {
		md = metadata.Pairs("dir-name", url.QueryEscape(r.Name), "dir-name-encoded", "1")
	}
	for key, patterns := range map[string][]string{"include-patterns": r.Include, "exclude-patterns": r.Exclude, "followpaths": r.Follow} {
		if len(patterns) == 0 {
			continue
		}
		if !isASCII(patterns) {
			escaped := make([]string, len(patterns))
			for i, pattern := range patterns {
				escaped[i] = url.QueryEscape(pattern)
			}
			patterns = escaped
			md.Set(key+"-encoded", "1")
		}
		md.Set(key, patterns...)
	}
	return md
}

func isASCII(texts []string) bool {
	return !strings.ContainsFunc(strings.Join(texts, ""), func(c rune) bool { return c > unicode.MaxASCII })
}
