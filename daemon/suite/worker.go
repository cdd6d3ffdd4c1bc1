// Package suite lets BuildKit's own integration tests run against llbmd: it is a backend for them, which gives each test
// a daemon of its own. The files of testdata add it to BuildKit's packages of tests, by Go's flag -overlay; no file of
// BuildKit is changed. dev/dev daemon suite builds and runs these tests.
//
// LLBMD_SUITE_DAEMON names the daemon and LLBMD_SUITE_LLBM the program; LLBMD_SUITE_FRONTEND, if it is set, is a frontend as
// the daemon's flag -frontend takes it. LLBMD_SUITE_PATH is the path in which the tests look for programs: it has no registry,
// so that tests that push an image leave themselves out.
package suite

import (
	"context"
	"fmt"
	"os"
	"os/exec"
	"path/filepath"
	"slices"
	"time"

	"github.com/moby/buildkit/util/testutil/integration"
)

// Name is the backend's name in the names of tests, as in TestX/worker=llbmd.
const Name = "llbmd"

const patience = 5 * time.Minute

// Features of the tests' list that the daemon has. A test that asks for another one is skipped.
var features = []string{
	"frontend_outline", "frontend_targets", "info", "merge_diff", "multi_platform", "oci_exporter", "source_date_epoch",
}

// Register adds the backend to those of the tests.
func Register() { integration.Register(worker{}) }

type worker struct{}

func (worker) Name() string        { return Name }
func (worker) Rootless() bool      { return false }
func (worker) NetNSDetached() bool { return false }
func (worker) Close() error        { return nil }

// New starts a daemon, and returns it once it can be reached. The second result stops it and removes its files.
func (worker) New(_ context.Context, config *integration.BackendConfig) (integration.Backend, func() error, error) {
	if path := os.Getenv("LLBMD_SUITE_PATH"); path != "" {
		if err := os.Setenv("PATH", path); err != nil {
			return nil, nil, err
		}
	}
	closers := &integration.MultiCloser{}
	address, err := start(config, closers)
	if err != nil {
		_ = closers.F()()
		return nil, nil, err
	}
	return backend(address), closers.F(), nil
}

func start(config *integration.BackendConfig, closers *integration.MultiCloser) (string, error) {
	folder, err := os.MkdirTemp("", "llbmd")
	if err != nil {
		return "", fmt.Errorf("a folder for the daemon: %w", err)
	}
	closers.Append(func() error { return os.RemoveAll(folder) })
	socket := filepath.Join(folder, "s")
	words := []string{"-addr", socket, "-llbm", os.Getenv("LLBMD_SUITE_LLBM")}
	if frontend := os.Getenv("LLBMD_SUITE_FRONTEND"); frontend != "" {
		words = append(words, "-frontend", frontend)
	}
	command := exec.Command(os.Getenv("LLBMD_SUITE_DAEMON"), words...)
	command.Env = append(os.Environ(), "TMPDIR="+folder)
	stop, err := integration.StartCmd(command, config.Logs)
	if err != nil {
		return "", fmt.Errorf("the daemon: %w", err)
	}
	closers.Append(stop)
	if err := integration.WaitSocket("unix://"+socket, patience, command); err != nil {
		return "", fmt.Errorf("the daemon's socket: %w", err)
	}
	return "unix://" + socket, nil
}

type backend string

func (b backend) Address() string         { return string(b) }
func (backend) DockerAddress() string     { return "" }
func (backend) ContainerdAddress() string { return "" }
func (backend) Rootless() bool            { return false }
func (backend) NetNSDetached() bool       { return false }
func (backend) Snapshotter() string       { return "" }

// Supports returns whether the daemon has a feature of the tests' list.
func (backend) Supports(feature string) bool { return slices.Contains(features, feature) }
