// Package peers listens on a unix socket of mode 0600, serves the daemon's own user and root, and says whose call one is.
package peers

import (
	"context"
	"errors"
	"fmt"
	"log"
	"net"
	"os"
	"strings"
	"sync"
	"sync/atomic"
	"syscall"
	"time"

	"google.golang.org/grpc/codes"
	"google.golang.org/grpc/credentials"
	"google.golang.org/grpc/peer"
	"google.golang.org/grpc/status"
	"google.golang.org/grpc/tap"
)

const (
	// patience bounds the wait for a server that may still listen on a socket.
	patience = time.Second
	// mostRefused bounds the connections of refused users whose calls are answered, and farewell how long each of them lasts.
	mostRefused = 16
	farewell    = 10 * time.Second
)

var umask sync.Mutex

// Path returns the path of an address, which is a path or has the form unix://PATH.
func Path(address string) (string, error) {
	path := strings.TrimPrefix(address, "unix://")
	if path == "" || strings.Contains(path, "://") {
		return "", fmt.Errorf("%q is not the path of a socket", address)
	}
	return path, nil
}

// Listen makes a socket of mode 0600 at a path. A socket that nobody listens on is replaced; anything else that is there is an error.
func Listen(path string) (net.Listener, error) {
	if info, err := os.Lstat(path); err == nil {
		if info.Mode()&os.ModeSocket == 0 {
			return nil, fmt.Errorf("%s: is there, and is no socket", path)
		}
		conn, err := net.DialTimeout("unix", path, patience)
		if err == nil {
			_ = conn.Close()
			return nil, fmt.Errorf("%s: another server listens there", path)
		}
		if !errors.Is(err, syscall.ECONNREFUSED) { // a server that is busy may take no connection now
			return nil, fmt.Errorf("%s: another server may listen there: %w", path, err)
		}
		if err := os.Remove(path); err != nil {
			return nil, err
		}
	}
	umask.Lock()
	defer umask.Unlock()
	before := syscall.Umask(0o177)
	defer syscall.Umask(before)
	return net.Listen("unix", path)
}

// Info is the user at the other end of a connection, and whether this one is served.
type Info struct {
	UID    uint32
	served bool
}

// AuthType names the way in which the user is known: by the kernel.
func (Info) AuthType() string { return "SO_PEERCRED" }

// User returns the user whose call a context belongs to.
func User(ctx context.Context) (uint32, error) {
	if p, ok := peer.FromContext(ctx); ok {
		if info, ok := p.AuthInfo.(Info); ok && info.served {
			return info.UID, nil
		}
	}
	return 0, errors.New("the call has no user")
}

// Tap refuses each call of a user that is not served, before anything of it is read. It is to be used with Credentials.
func Tap(ctx context.Context, _ *tap.Info) (context.Context, error) {
	if p, ok := peer.FromContext(ctx); ok {
		if info, ok := p.AuthInfo.(Info); ok && !info.served {
			return nil, status.Errorf(codes.PermissionDenied, "user %d is not served by this llbmd: its own user, %d, and root are", info.UID, os.Getuid())
		}
	}
	return ctx, nil
}

// Credentials know users other than the daemon's and root, which are refused, and keep the user for User.
func Credentials() credentials.TransportCredentials {
	return &kernel{own: uint32(os.Getuid()), answered: make(chan struct{}, mostRefused)}
}

type kernel struct {
	own      uint32
	refused  atomic.Int64
	answered chan struct{} // has an element for each connection of a refused user
}

func (k *kernel) ServerHandshake(conn net.Conn) (net.Conn, credentials.AuthInfo, error) {
	uid, err := userOf(conn)
	if err != nil {
		return nil, nil, err
	}
	return k.admit(conn, uid)
}

// admit admits a user. Another one stays connected for a short time, in which Tap can say why it is refused. The log has a line for
// the first of these connections, the second, the fourth and so on, so that nobody can fill it.
func (k *kernel) admit(conn net.Conn, uid uint32) (net.Conn, credentials.AuthInfo, error) {
	if uid == k.own || uid == 0 {
		return conn, Info{uid, true}, nil
	}
	if n := k.refused.Add(1); n&(n-1) == 0 {
		log.Printf("llbmd: user %d is refused, as connection %d that is: user %d and root are served", uid, n, k.own)
	}
	select {
	case k.answered <- struct{}{}:
		time.AfterFunc(farewell, func() {
			_ = conn.Close()
			<-k.answered
		})
		return conn, Info{uid, false}, nil
	default:
		return nil, nil, fmt.Errorf("user %d is not served", uid)
	}
}

func (*kernel) ClientHandshake(context.Context, string, net.Conn) (net.Conn, credentials.AuthInfo, error) {
	return nil, nil, errors.New("these credentials are a server's")
}

func (*kernel) Info() credentials.ProtocolInfo {
	return credentials.ProtocolInfo{SecurityProtocol: "unix socket"}
}

func (k *kernel) Clone() credentials.TransportCredentials { return k }

func (*kernel) OverrideServerName(string) error { return nil }

func userOf(conn net.Conn) (uint32, error) {
	socket, ok := conn.(syscall.Conn)
	if !ok {
		return 0, errors.New("the connection is no socket")
	}
	raw, err := socket.SyscallConn()
	if err != nil {
		return 0, err
	}
	var found *syscall.Ucred
	var fault error
	if err := raw.Control(func(fd uintptr) {
		found, fault = syscall.GetsockoptUcred(int(fd), syscall.SOL_SOCKET, syscall.SO_PEERCRED)
	}); err != nil {
		return 0, err
	}
	if fault != nil {
		return 0, fault
	}
	return found.Uid, nil
}
