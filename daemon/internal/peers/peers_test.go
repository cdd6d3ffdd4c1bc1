package peers

import (
	"bytes"
	"context"
	"errors"
	"log"
	"net"
	"os"
	"path/filepath"
	"strings"
	"testing"

	"golang.org/x/sys/unix"
	"google.golang.org/grpc/codes"
	"google.golang.org/grpc/peer"
	"google.golang.org/grpc/status"
)

func TestAnAddressIsAPath(t *testing.T) {
	for address, want := range map[string]string{"/a/s": "/a/s", "unix:///a/s": "/a/s", "s": "s", "": "", "unix://": "", "tcp://a:1": ""} {
		got, err := Path(address)
		if got != want || (err == nil) != (want != "") {
			t.Errorf("%q: %q, %v", address, got, err)
		}
	}
}

func TestASocketThatNobodyListensOnIsReplaced(t *testing.T) {
	folder, err := os.MkdirTemp("", "llbmd-")
	if err != nil {
		t.Fatal(err)
	}
	defer os.RemoveAll(folder)
	path := filepath.Join(folder, "s")
	first, err := Listen(path)
	if err != nil {
		t.Fatal(err)
	}
	info, err := os.Stat(path)
	if err != nil || info.Mode().Perm() != 0o600 {
		t.Error(info.Mode(), err)
	}
	if _, err := Listen(path); err == nil {
		t.Error("two servers listen")
	}
	first.(*net.UnixListener).SetUnlinkOnClose(false)
	if err := first.Close(); err != nil {
		t.Fatal(err)
	}
	second, err := Listen(path)
	if err != nil {
		t.Fatal(err)
	}
	if err := second.Close(); err != nil {
		t.Error(err)
	}
	if err := os.WriteFile(path, []byte("mine"), 0o600); err != nil {
		t.Fatal(err)
	}
	if _, err := Listen(path); err == nil {
		t.Error("a file was replaced")
	}
}

func TestASocketOfABusyServerIsNotReplaced(t *testing.T) {
	folder, err := os.MkdirTemp("", "llbmd-")
	if err != nil {
		t.Fatal(err)
	}
	defer os.RemoveAll(folder)
	path := filepath.Join(folder, "s")
	server, err := unix.Socket(unix.AF_UNIX, unix.SOCK_STREAM|unix.SOCK_CLOEXEC, 0)
	if err != nil {
		t.Fatal(err)
	}
	defer func() { _ = unix.Close(server) }()
	if err := errors.Join(unix.Bind(server, &unix.SockaddrUnix{Name: path}), unix.Listen(server, 0)); err != nil {
		t.Fatal(err)
	}
	for i := 0; i < 10; i++ { // it accepts none, so its queue is full after the first one or two
		client, err := unix.Socket(unix.AF_UNIX, unix.SOCK_STREAM|unix.SOCK_NONBLOCK|unix.SOCK_CLOEXEC, 0)
		if err != nil {
			t.Fatal(err)
		}
		defer func() { _ = unix.Close(client) }()
		_ = unix.Connect(client, &unix.SockaddrUnix{Name: path})
	}
	if _, err := Listen(path); err == nil {
		t.Error("two servers listen")
	}
	if _, err := os.Stat(path); err != nil {
		t.Error(err)
	}
}

func TestACallWithoutAPeerHasNoUser(t *testing.T) {
	if _, err := User(context.Background()); err == nil {
		t.Error("it has one")
	}
}

func TestARefusedUserIsToldAndLogged(t *testing.T) {
	var lines bytes.Buffer
	log.SetOutput(&lines)
	defer log.SetOutput(os.Stderr)
	k := &kernel{own: 1000, answered: make(chan struct{}, 2)}
	for _, uid := range []uint32{0, 1000} {
		_, info, err := k.admit(nil, uid)
		ctx := peer.NewContext(context.Background(), &peer.Peer{AuthInfo: info})
		if got, userErr := User(ctx); err != nil || userErr != nil || got != uid {
			t.Error(uid, got, err, userErr)
		}
		if _, err := Tap(ctx, nil); err != nil {
			t.Error(uid, err)
		}
	}
	for i := range 4 {
		here, there := net.Pipe()
		defer there.Close()
		_, info, err := k.admit(here, 1234)
		if i >= 2 {
			if err == nil {
				t.Error("more connections are answered than may be")
			}
			continue
		}
		ctx := peer.NewContext(context.Background(), &peer.Peer{AuthInfo: info})
		if _, err := User(ctx); err == nil {
			t.Error("a refused user is one")
		}
		_, tapped := Tap(ctx, nil)
		if status.Code(tapped) != codes.PermissionDenied || !strings.HasPrefix(status.Convert(tapped).Message(), "user 1234 is not served") {
			t.Error(err, tapped)
		}
	}
	if got := strings.Count(lines.String(), "user 1234 is refused"); got != 3 { // the first, the second and the fourth
		t.Error(lines.String())
	}
}
