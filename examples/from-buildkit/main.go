// Writes the definitions of this folder as BuildKit's own Go client marshals them: `main FOLDER` makes FOLDER/NAME/definition for each NAME
// below, one of them by BuildKit's frontend for Dockerfiles. What a frontend adds to a graph for its progress and its errors is there too:
// names of vertices, and places in a source text.
package main

import (
	"bytes"
	"context"
	"log"
	"os"
	"path/filepath"

	"github.com/moby/buildkit/client/llb"
	"github.com/moby/buildkit/frontend/dockerfile/dockerfile2llb"
	"github.com/moby/buildkit/solver/pb"
)

// A copy out of a local source, a directory and a file.
func copied() llb.State {
	project := llb.Local("project", llb.ExcludePatterns([]string{".git"}), llb.WithCustomName("the project"))
	sources := &llb.CopyInfo{CopyDirContentsOnly: true, CreateDestPath: true}
	return llb.Scratch().
		File(llb.Copy(project, "/src", "/app/src", sources)).
		File(llb.Copy(project, "/*.md", "/app/", &llb.CopyInfo{AllowWildcard: true}).
			Mkdir("/app/log", 0o700, llb.WithUIDGID(7, 7)).
			Mkfile("/app/version", 0o644, []byte("1.0\n")), llb.WithCustomName("the rest"))
}

// Three states laid over each other: the last one replaces a file, and the mode of a directory.
func merged() llb.State {
	base := llb.Scratch().File(llb.Mkdir("/etc", 0o755).Mkfile("/etc/motd", 0o644, []byte("hello\n")))
	tool := llb.Scratch().File(llb.Mkdir("/usr/bin", 0o755, llb.WithParents(true)).Mkfile("/usr/bin/tool", 0o755, []byte("tool\n")))
	site := llb.Scratch().File(llb.Mkdir("/etc", 0o750).Mkfile("/etc/motd", 0o600, []byte("welcome\n")))
	return llb.Merge([]llb.State{base, tool, site}, llb.WithCustomName("all layers"))
}

// A script over two local sources, one of them read-only, with a tmpfs.
func executed() llb.State {
	script := "mkdir -p out && concat /tmp/all /in/greeting /in/name && cp /tmp/all out/all && sha256 out/all out/sum && envfile out/env"
	return llb.Local("base").Dir("/work").AddEnv("LANG", "C").Run(
		llb.Args([]string{"/bin/sh", "-c", script}),
		llb.AddMount("/in", llb.Local("words"), llb.SourcePath("/en"), llb.Readonly),
		llb.AddMount("/tmp", llb.Scratch(), llb.Tmpfs()),
		llb.WithCustomName("joins the words"),
	).Root()
}

// A script in an image, with the lines of the file that a frontend made it of.
func inImage() llb.State {
	file := []byte("FROM alpine:3.19\nRUN mkdir -p /out && cp /etc/alpine-release /out/release\n")
	lines := llb.NewSourceMap(nil, "Dockerfile", "Dockerfile", file)
	at := func(line int32) llb.ConstraintsOpt {
		return lines.Location([]*pb.Range{{Start: pb.Position{Line: line}, End: pb.Position{Line: line}}})
	}
	return llb.Image("alpine:3.19", at(1)).Run(
		llb.Args([]string{"/bin/sh", "-c", "mkdir -p /out && cp /etc/alpine-release /out/release"}), at(2),
	).Root()
}

// What the frontend for Dockerfiles makes of a file, whose stages begin from nothing.
func fromDockerfile(place string) llb.State {
	file, err := os.ReadFile(place)
	if err != nil {
		log.Fatal(err)
	}
	project := llb.Local("context")
	lines := llb.NewSourceMap(nil, "Dockerfile", "Dockerfile", file)
	state, _, _, _, err := dockerfile2llb.Dockerfile2LLB(context.Background(), file, dockerfile2llb.ConvertOpt{MainContext: &project, SourceMap: lines})
	if err != nil {
		log.Fatal(err)
	}
	return *state
}

func main() {
	if len(os.Args) != 2 {
		log.Fatal("usage: main FOLDER")
	}
	dockerfile := fromDockerfile(filepath.Join(os.Args[1], "dockerfile", "Dockerfile"))
	for name, state := range map[string]llb.State{
		"copy": copied(), "merge": merged(), "exec": executed(), "image": inImage(), "dockerfile": dockerfile,
	} {
		// The client takes the platform of its machine, and for local sources a new unique ID at each run, where it is told none.
		definition, err := state.Marshal(context.Background(), llb.LinuxAmd64, llb.LocalUniqueID("example"))
		if err != nil {
			log.Fatal(err)
		}
		var written bytes.Buffer
		if err := llb.WriteTo(definition, &written); err != nil {
			log.Fatal(err)
		}
		folder := filepath.Join(os.Args[1], name)
		if err := os.MkdirAll(folder, 0o755); err != nil {
			log.Fatal(err)
		}
		if err := os.WriteFile(filepath.Join(folder, "definition"), written.Bytes(), 0o644); err != nil {
			log.Fatal(err)
		}
	}
}
