package frontends

import (
	"context"
	"errors"
	"fmt"
	"os"
	"path/filepath"
	"strings"
	"testing"

	gatewaypb "github.com/moby/buildkit/frontend/gateway/pb"
	"google.golang.org/grpc/codes"
	"google.golang.org/grpc/status"
	"llbm/daemon/internal/builds"
	"llbm/daemon/internal/gateway"
)

func TestAFrontendIsFoundFromTheWorkingFolder(t *testing.T) {
	folder, err := filepath.EvalSymlinks(t.TempDir())
	if err != nil {
		t.Fatal(err)
	}
	path := filepath.Join(folder, "frontend")
	if err := os.WriteFile(path, []byte("#!/bin/sh\n"), 0o755); err != nil {
		t.Fatal(err)
	}
	t.Chdir(folder)
	var f Frontends
	if err := f.Set("test.v0=./frontend"); err != nil || f.Programs["test.v0"] != path {
		t.Errorf("%q %v", f.Programs, err)
	}
}

// program writes a program of a shell, in a folder of a mode whose own folders all may enter.
func program(t *testing.T, mode os.FileMode, text string) string {
	t.Helper()
	folder := t.TempDir()
	path := filepath.Join(folder, "frontend")
	if err := os.WriteFile(path, []byte("#!/bin/sh\n"+text), 0o755); err != nil {
		t.Fatal(err)
	}
	for dir := folder; dir != "/" && dir != os.TempDir(); dir = filepath.Dir(dir) { // the frontend may be another user's
		if err := os.Chmod(dir, 0o755); err != nil {
			t.Fatal(err)
		}
	}
	if err := os.Chmod(folder, mode); err != nil {
		t.Fatal(err)
	}
	return path
}

var environ = []string{"PATH=/usr/bin:/bin"}

func TestWhatAFrontendLeavesIsKilledBeforeItsMessagesAreWaitedFor(t *testing.T) {
	c, err := (&Frontends{}).start(context.Background(), program(t, 0o755, "echo said >&2\nsleep 100000 &\n"), environ)
	if err != nil {
		t.Fatal(err)
	}
	<-c.ended
	if c.failed != nil || c.messages.String() != "said\n" {
		t.Errorf("%v %q", c.failed, c.messages.String())
	}
}

func TestAFrontendOfRootRunsInAFolderOfRootAlone(t *testing.T) {
	if os.Getuid() != 0 {
		t.Skip("only root runs frontends as another user")
	}
	c, err := (&Frontends{}).start(context.Background(), program(t, 0o700, "id -u >&2\n"), environ)
	if err != nil {
		t.Fatal(err)
	}
	<-c.ended
	if c.failed != nil || c.messages.String() != "65534\n" {
		t.Errorf("%v %q", c.failed, c.messages.String())
	}
}

func TestAProgramThatItsModeKeepsFromOthersIsNoFrontendOfRoot(t *testing.T) {
	path := filepath.Join(t.TempDir(), "frontend")
	if err := os.WriteFile(path, nil, 0o700); err != nil {
		t.Fatal(err)
	}
	if err := executable(path, 0); err == nil || !strings.Contains(err.Error(), "chmod a+rx "+path) {
		t.Error(err)
	}
	if err := executable(path, 1000); err != nil {
		t.Error(err)
	}
}

func TestAFrontendWithoutAResultSaysHowItEnded(t *testing.T) {
	for text, want := range map[string]string{
		"":                            "(exit status 0), and wrote nothing to standard error",
		"exit 3":                      "(exit status 3), and wrote nothing to standard error",
		"echo 'no such thing' >&2":    "(exit status 0): no such thing",
		"echo reason >&2; kill -9 $$": "(signal: killed): reason",
	} {
		c, err := (&Frontends{}).start(context.Background(), program(t, 0o755, text), environ)
		if err != nil {
			t.Fatal(err)
		}
		<-c.ended
		if got := c.ending(); got != want {
			t.Errorf("%q: %q", text, got)
		}
	}
}

func TestMessagesAreBounded(t *testing.T) {
	c, err := (&Frontends{}).start(context.Background(), program(t, 0o755, "head -c 200000 /dev/zero >&2; exit 3"), environ)
	if err != nil {
		t.Fatal(err)
	}
	<-c.ended
	if size := len(c.messages.String()); size != mostMessages || c.failed.Error() != "exit status 3" {
		t.Error(size, c.failed)
	}
}

// build starts a build.
func build(t *testing.T) *builds.Build {
	t.Helper()
	b, err := builds.New(1).Start(context.Background(), 0, "ref", "")
	if err != nil {
		t.Fatal(err)
	}
	return b
}

func TestAnOptionThatNoProgramCanBeGivenIsRefusedByName(t *testing.T) {
	asked := gateway.Frontend{Name: "test.v0", Options: map[string]string{"build-arg:LONG": strings.Repeat("x", 128<<10)}}
	_, err := environment(build(t), asked, nil)
	if status.Code(err) != codes.InvalidArgument || !strings.Contains(err.Error(), "frontend test.v0: the option build-arg:LONG has 131072 bytes") {
		t.Error(err)
	}
	const name = "BUILDKIT_FRONTEND_OPT_0=build-arg:LONG="
	asked.Options["build-arg:LONG"] = strings.Repeat("x", mostOfOption-len(name))
	env, err := environment(build(t), asked, nil)
	if err != nil {
		t.Fatal(err)
	}
	c, err := (&Frontends{}).start(context.Background(), program(t, 0o755, "set | grep -c LONG= >&2\n"), append(env, environ...))
	if err != nil {
		t.Fatal(err)
	}
	<-c.ended
	if c.messages.String() != "1\n" {
		t.Error(c.ending())
	}
}

func TestOptionsThatAreTooLongTogetherAreRefused(t *testing.T) {
	options := map[string]string{}
	for n := range 80 { // 8 MiB: more than a quarter of any stack that a program may have
		options[fmt.Sprint(n)] = strings.Repeat("x", 100<<10)
	}
	f := &Frontends{Programs: map[string]string{"test.v0": program(t, 0o755, "")}, Gateway: &gateway.Gateway{}}
	_, err := f.Run(context.Background(), build(t), gateway.Frontend{Name: "test.v0", Options: options})
	if status.Code(err) != codes.InvalidArgument || !strings.Contains(err.Error(), "frontend test.v0: its options have 819") {
		t.Error(err)
	}
}

func TestFrontendsWaitForOneAnotherButNotForTheirCallers(t *testing.T) {
	f := &Frontends{AtOnce: 1}
	b := build(t)
	leave, err := f.enter(context.Background(), b, gateway.Frontend{})
	if err != nil {
		t.Fatal(err)
	}
	ended, cancel := context.WithCancel(context.Background())
	cancel()
	if _, err := f.enter(ended, b, gateway.Frontend{}); status.Code(err) != codes.Canceled {
		t.Error(err)
	}
	if called, err := f.enter(ended, b, gateway.Frontend{IsCalled: true}); err != nil {
		t.Error(err)
	} else {
		called()
	}
	entered := make(chan error)
	go func() {
		leave, err := f.enter(context.Background(), b, gateway.Frontend{})
		if err == nil {
			leave()
		}
		entered <- err
	}()
	leave()
	if err := <-entered; err != nil {
		t.Error(err)
	}
}

// A frontend ends as soon as it knows that its result was taken.
func TestAResultIsTakenAlsoFromAFrontendThatHasEnded(t *testing.T) {
	c := &child{messages: &messages{}, ended: make(chan struct{})}
	close(c.ended)
	b := build(t)
	for range 1000 {
		returned := make(chan *gatewaypb.ReturnRequest, 1)
		returned <- &gatewaypb.ReturnRequest{Result: &gatewaypb.Result{}}
		if result, err := c.await(context.Background(), b, returned); err != nil || result == nil {
			t.Fatal(result, err)
		}
	}
	if _, err := c.await(context.Background(), b, nil); !errors.Is(err, errEnded) {
		t.Error(err)
	}
	canceled, cancel := context.WithCancel(context.Background())
	cancel()
	if _, err := c.await(canceled, b, nil); status.Code(err) != codes.Canceled {
		t.Error(err)
	}
}

func TestTheImagesOfTheDockerfileFrontendAreTheFrontend(t *testing.T) {
	f := Frontends{Programs: map[string]string{"dockerfile.v0": "/dockerfile", "example/own:1": "/own"}}
	for source, want := range map[string]string{
		"docker/dockerfile":                        "/dockerfile",
		"docker/dockerfile:1":                      "/dockerfile",
		"docker.io/docker/dockerfile:1.7-labs":     "/dockerfile",
		"docker/dockerfile-upstream:master":        "/dockerfile",
		"docker/dockerfile:1@sha256:" + sum:        "/dockerfile",
		"example/own:1":                            "/own",
		"example/dockerfile:1":                     "",
		"registry.example.com/docker/dockerfile:1": "",
		"docker/dockerfiles:1":                     "",
		"DOCKER/dockerfile":                        "",
	} {
		got, err := f.find(gateway.Frontend{Name: "gateway.v0", Options: map[string]string{"source": source}})
		if got != want || (err == nil) != (want != "") {
			t.Errorf("%s: %q %v, not %q", source, got, err, want)
		}
		if err != nil && !strings.Contains(err.Error(), `no frontend "`+source+`"`) {
			t.Errorf("%s: %v", source, err)
		}
	}
	f.Programs["docker/dockerfile:1"] = "/other"
	if got, err := f.find(gateway.Frontend{Name: "gateway.v0", Options: map[string]string{"source": "docker/dockerfile:1"}}); got != "/other" {
		t.Errorf("a program of the image's own name is not taken: %q %v", got, err)
	}
}

const sum = "e3b0c44298fc1c149afbf4c8996fb92427ae41e4649b934ca495991b7852b855"
