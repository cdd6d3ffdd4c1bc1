// Package serving serves calls of gRPC: of clients through a socket, and of a child through its connection.
package serving

import (
	"context"
	"log"
	"runtime/debug"

	"github.com/moby/buildkit/util/grpcerrors"
	"google.golang.org/grpc"
	"google.golang.org/grpc/codes"
	"google.golang.org/grpc/credentials"
	"google.golang.org/grpc/status"
	"llbm/daemon/internal/advice"
	"llbm/daemon/internal/messages"
	"llbm/daemon/internal/peers"
)

// Bounds of a message, and of the calls of one connection at once.
const (
	mostMessage = 64<<20 + 1<<20
	mostStreams = 4096
)

// ForClients returns a server of clients, whose users are known.
func ForClients() *grpc.Server { return grpc.NewServer(options(peers.Credentials())...) }

// ForChild returns a server of a child of the daemon.
func ForChild() *grpc.Server { return grpc.NewServer(options(nil)...) }

// options are those of a server of gRPC: bounds, plain errors, and no panic that ends the daemon.
func options(c credentials.TransportCredentials) []grpc.ServerOption {
	out := []grpc.ServerOption{
		grpc.ChainUnaryInterceptor(speak, grpcerrors.UnaryServerInterceptor, guard),
		grpc.ChainStreamInterceptor(speakOfStream, grpcerrors.StreamServerInterceptor, guardStream),
		grpc.MaxRecvMsgSize(mostMessage), grpc.MaxSendMsgSize(mostMessage), grpc.MaxConcurrentStreams(mostStreams),
	}
	if c != nil {
		out = append(out, grpc.Creds(c), grpc.InTapHandle(peers.Tap))
	}
	return out
}

// speak makes the error of a call plain, and adds the next step: it may have come through frontends and through the daemon before.
func speak(ctx context.Context, req any, _ *grpc.UnaryServerInfo, handler grpc.UnaryHandler) (any, error) {
	resp, err := handler(ctx, req)
	return resp, advice.Add(messages.Plain(err))
}

func speakOfStream(srv any, stream grpc.ServerStream, _ *grpc.StreamServerInfo, handler grpc.StreamHandler) error {
	return advice.Add(messages.Plain(handler(srv, stream)))
}

// guard turns a panic of one call into that call's error.
func guard(ctx context.Context, req any, info *grpc.UnaryServerInfo, handler grpc.UnaryHandler) (resp any, err error) {
	defer recovered(info.FullMethod, &err)
	return handler(ctx, req)
}

func guardStream(srv any, stream grpc.ServerStream, info *grpc.StreamServerInfo, handler grpc.StreamHandler) (err error) {
	defer recovered(info.FullMethod, &err)
	return handler(srv, stream)
}

func recovered(method string, err *error) {
	if r := recover(); r != nil {
		log.Printf("llbmd: %s: %v\n%s", method, r, debug.Stack())
		*err = status.Errorf(codes.Internal, "%s: %v", method, r)
	}
}

// Serve serves a socket at an address until the context ends. Calls that run then are ended, and the socket is removed.
func Serve(ctx context.Context, server *grpc.Server, address string) error {
	path, err := peers.Path(address)
	if err != nil {
		return err
	}
	listener, err := peers.Listen(path)
	if err != nil {
		return err
	}
	log.Printf("llbmd: listening on %s", path)
	stopped := make(chan struct{})
	ctx, cancel := context.WithCancel(ctx)
	go func() {
		defer close(stopped)
		<-ctx.Done()
		server.Stop() // it closes the listener, which removes the socket
	}()
	err = server.Serve(listener)
	if ctx.Err() != nil {
		err = nil
	}
	cancel()
	<-stopped
	return err
}
