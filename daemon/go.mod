module llbm/daemon

go 1.24

// Debian's trixie has this version (of docker.io 26.1.5). `go mod tidy` adds the versions that it asks for of other modules.
require github.com/moby/buildkit v0.13.2
