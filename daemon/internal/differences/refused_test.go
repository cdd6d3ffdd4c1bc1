package differences

import (
	"testing"

	"github.com/moby/buildkit/solver/pb"
	"google.golang.org/grpc/codes"
	"google.golang.org/grpc/status"
)

func TestExecutionsThatBuildKitRefusesAsItLoadsThemAreRefused(t *testing.T) {
	root := []*pb.Mount{{Dest: "/a"}, {Dest: "/"}}
	for want, exec := range map[string]*pb.ExecOp{
		"": {Mounts: root},
		"failed to load LLB: invalid exec op with no rootfs": {Mounts: []*pb.Mount{{Dest: "//"}}},
		"failed to load LLB: network.host is not allowed":    {Mounts: root, Network: pb.NetMode_HOST},
		"failed to load LLB: security.insecure is not allowed": {
			Mounts: root, Security: pb.SecurityMode_INSECURE,
		},
	} {
		if err := refused(exec); status.Convert(err).Message() != want {
			t.Errorf("%v, not %q", err, want)
		}
	}
	if err := refused(&pb.ExecOp{Mounts: root, Network: pb.NetMode_NONE}); status.Code(err) != codes.OK {
		t.Error(err)
	}
}
