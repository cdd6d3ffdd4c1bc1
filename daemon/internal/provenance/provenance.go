// Package provenance says how a result was made, in the form that BuildKit has for it: a statement of in-toto with a predicate of SLSA.
package provenance

import (
	"encoding/json"
	"fmt"
	"maps"
	"net/url"
	"slices"
	"strings"

	"github.com/containerd/containerd/platforms"
	"github.com/distribution/reference"
	slsa "github.com/in-toto/in-toto-golang/in_toto/slsa_provenance/common"
	slsa02 "github.com/in-toto/in-toto-golang/in_toto/slsa_provenance/v0.2"
	"github.com/moby/buildkit/solver/llbsolver/provenance/types"
	"github.com/moby/buildkit/solver/pb"
	digest "github.com/opencontainers/go-digest"
	ocispecs "github.com/opencontainers/image-spec/specs-go/v1"
	"llbm/daemon/internal/graph"
)

// The types of a statement, and of what a layer of an attestation is.
const (
	ofStatement   = "https://in-toto.io/Statement/v0.1"
	PredicateType = "https://slsa.dev/provenance/v0.2"
	MediaType     = "application/vnd.in-toto+json"
)

// Asked is what was asked for: a build, and its provenance.
type Asked struct {
	Frontend string
	Options  map[string]string
	IsMax    bool              // whether the definition is a part of it
	Worker   ocispecs.Platform // on which the build ran
}

// A Subject is what was made: a name, and a digest.
type Subject struct {
	Name   string            `json:"name"`
	Digest map[string]string `json:"digest"`
}

// SubjectOf returns the subject of a name and a digest.
func SubjectOf(name string, d digest.Digest) Subject {
	return Subject{name, map[string]string{d.Algorithm().String(): d.Encoded()}}
}

// A statement is what is written.
type statement struct {
	Type          string                     `json:"_type"`
	PredicateType string                     `json:"predicateType"`
	Subject       []Subject                  `json:"subject"`
	Predicate     *types.ProvenancePredicate `json:"predicate"`
}

// Of returns the statement of what a definition made. It has no times: the same build has the same one.
func Of(asked Asked, def *pb.Definition, subjects []Subject) ([]byte, error) {
	if subjects == nil {
		subjects = []Subject{}
	}
	one := statement{ofStatement, PredicateType, subjects, asked.predicate()}
	if def != nil && len(def.Def) > 0 {
		if err := asked.describe(one.Predicate, def); err != nil {
			return nil, err
		}
	}
	return json.Marshal(one)
}

// predicate returns what does not depend on the definition.
func (a *Asked) predicate() *types.ProvenancePredicate {
	p := &types.ProvenancePredicate{Metadata: &types.ProvenanceMetadata{}}
	p.BuildType = types.BuildKitBuildType
	p.Materials = []slsa.ProvenanceMaterial{}
	p.Invocation.Environment.Platform = platforms.Format(platforms.Normalize(a.Worker))
	p.Invocation.Parameters.Frontend = a.Frontend
	p.Metadata.Completeness = slsa02.ProvenanceComplete{Parameters: a.Frontend != "", Environment: true, Materials: true}
	p.Metadata.Hermetic = true
	p.Invocation.Parameters.Args = a.args(p)
	return p
}

// ofHosts are options that say nothing of what is made.
var ofHosts = []string{"cgroup-parent", "image-resolve-mode", "platform", "cache-imports"}

// args returns the options of the frontend. In the short form build arguments and labels are left out, as they may have secrets.
func (a *Asked) args(p *types.ProvenancePredicate) map[string]string {
	args := map[string]string{}
	for key, value := range a.Options {
		isArgument := strings.HasPrefix(key, "build-arg:") || strings.HasPrefix(key, "label:")
		switch {
		case slices.Contains(ofHosts, key) || strings.HasPrefix(key, "attest:"):
		case isArgument && !a.IsMax:
			p.Metadata.Completeness.Parameters = false
		case key == "filename" && value != "":
			p.Invocation.ConfigSource.EntryPoint = value
		case strings.HasPrefix(key, "vcs:"):
			if p.Metadata.BuildKitMetadata.VCS == nil {
				p.Metadata.BuildKitMetadata.VCS = map[string]string{}
			}
			p.Metadata.BuildKitMetadata.VCS[strings.TrimPrefix(key, "vcs:")] = redacted(value)
		default:
			args[key] = redacted(value)
		}
	}
	return args
}

// redacted returns an address without what it has of a user.
func redacted(text string) string {
	found, err := url.Parse(text)
	if err != nil || found.User == nil {
		return text
	}
	found.User = url.UserPassword("xxxxx", "xxxxx")
	return found.String()
}

// describe adds what a definition was made of and, in the long form, the definition.
func (a *Asked) describe(p *types.ProvenancePredicate, def *pb.Definition) error {
	g, err := graph.Load(def, def)
	if err != nil {
		return err
	}
	locals := map[string]bool{}
	for v := range g.Vertices {
		op := g.Vertices[v].Op
		if source := op.GetSource(); source != nil {
			kind, name, _ := strings.Cut(source.Identifier, "://")
			if kind == "local" {
				locals[name] = true
				continue
			}
			p.Materials = append(p.Materials, material(kind, name, op.Platform))
		}
		p.Invocation.Parameters.Secrets = append(p.Invocation.Parameters.Secrets, a.secrets(op)...)
	}
	for _, name := range slices.Sorted(maps.Keys(locals)) {
		p.Invocation.Parameters.Locals = append(p.Invocation.Parameters.Locals, &types.LocalSource{Name: name})
	}
	if len(locals) > 0 {
		p.Metadata.Completeness.Materials, p.Metadata.Hermetic = false, false
	}
	if a.IsMax {
		addDefinition(p, def, g)
	}
	return nil
}

// secrets returns the secrets that an op mounts, in the long form.
func (a *Asked) secrets(op *pb.Op) []*types.Secret {
	var out []*types.Secret
	for _, mount := range op.GetExec().GetMounts() {
		if mount.SecretOpt != nil && a.IsMax {
			out = append(out, &types.Secret{ID: mount.SecretOpt.ID, Optional: mount.SecretOpt.Optional})
		}
	}
	return out
}

// material returns what is known of a source that is not local: an image has its digest, if the reference has it.
func material(kind, name string, platform *pb.Platform) slsa.ProvenanceMaterial {
	if kind != "docker-image" && kind != "oci-layout" {
		return slsa.ProvenanceMaterial{URI: kind + "://" + redacted(name)}
	}
	where := map[string]string{"docker-image": "docker", "oci-layout": "oci"}[kind]
	var p *ocispecs.Platform
	if platform != nil {
		p = &ocispecs.Platform{OS: platform.OS, Architecture: platform.Architecture, Variant: platform.Variant}
	}
	m := slsa.ProvenanceMaterial{URI: Package(where, name, p)}
	if ref, err := reference.ParseNormalizedNamed(name); err == nil {
		if digested, ok := ref.(reference.Digested); ok {
			m.Digest = slsa.DigestSet{digested.Digest().Algorithm().String(): digested.Digest().Encoded()}
		}
	}
	return m
}

// Package returns the address of an image as a package.
func Package(kind, name string, platform *ocispecs.Platform) string {
	ref, err := reference.ParseNormalizedNamed(name)
	if err != nil {
		return name
	}
	var more []string
	if digested, ok := ref.(reference.Digested); ok {
		more = append(more, "digest="+digested.Digest().String())
	} else {
		ref = reference.TagNameOnly(ref)
	}
	address := "pkg:" + kind + "/" + reference.FamiliarName(ref)
	if tagged, ok := ref.(reference.Tagged); ok {
		address += "@" + tagged.Tag()
	}
	if platform != nil {
		more = append(more, "platform="+url.QueryEscape(platforms.Format(platforms.Normalize(*platform))))
	}
	if len(more) > 0 {
		address += "?" + strings.Join(more, "&")
	}
	return address
}

// addDefinition adds the ops, with the places in files from which they were made.
func addDefinition(p *types.ProvenancePredicate, def *pb.Definition, g *graph.Graph) {
	p.BuildConfig = &types.BuildConfig{DigestMapping: map[digest.Digest]string{}}
	id := func(v int) string { return fmt.Sprintf("step%d", v) }
	for v := range g.Vertices {
		one := types.BuildStep{ID: id(v), Op: *g.Vertices[v].Op}
		for i, input := range g.Vertices[v].Inputs {
			one.Inputs = append(one.Inputs, fmt.Sprintf("%s:%d", id(input), one.Op.Inputs[i].Index))
		}
		one.Op.Inputs = nil
		if source := one.Op.GetSource(); source != nil {
			one.Op.Op = withoutSession(source)
		}
		p.BuildConfig.Definition = append(p.BuildConfig.Definition, one)
		p.BuildConfig.DigestMapping[g.Vertices[v].Digest] = id(v)
	}
	if def.Source == nil || len(def.Source.Infos) == 0 {
		return
	}
	source := &types.Source{Locations: map[string]*pb.Locations{}}
	for _, info := range def.Source.Infos {
		source.Infos = append(source.Infos, types.SourceInfo{Filename: info.Filename, Language: info.Language, Data: info.Data})
	}
	for v := range g.Vertices {
		if found := def.Source.Locations[g.Vertices[v].Digest.String()]; found != nil {
			source.Locations[id(v)] = found
		}
	}
	p.Metadata.BuildKitMetadata.Source = source
}

// withoutSession returns a source without what differs from client to client.
func withoutSession(source *pb.SourceOp) *pb.Op_Source {
	attrs := maps.Clone(source.Attrs)
	delete(attrs, pb.AttrLocalSessionID)
	delete(attrs, pb.AttrLocalUniqueID)
	return &pb.Op_Source{Source: &pb.SourceOp{Identifier: source.Identifier, Attrs: attrs}}
}
