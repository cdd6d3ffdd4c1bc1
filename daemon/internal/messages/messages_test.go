package messages

import (
	"context"
	"errors"
	"fmt"
	"testing"

	"github.com/moby/buildkit/util/grpcerrors"
	"google.golang.org/grpc/codes"
	"google.golang.org/grpc/status"
)

func TestAMessageThatWentThroughHopsIsPlain(t *testing.T) {
	err := status.Error(codes.Unimplemented, "llbm: fault 88 0 Source")
	for range 3 {
		err = fmt.Errorf("alpine: %w", grpcerrors.FromGRPC(grpcerrors.ToGRPC(context.Background(), err)))
	}
	if got := Of(err); got != "alpine: alpine: alpine: llbm: fault 88 0 Source" {
		t.Error(got)
	}
	again := Plain(grpcerrors.ToGRPC(context.Background(), err))
	if st := status.Convert(again); st.Code() != codes.Unimplemented || st.Message() != Of(err) {
		t.Error(again)
	}
}

func TestWhatIsNotTheCodeStays(t *testing.T) {
	for want, err := range map[string]error{
		"":                       nil,
		"no code":                errors.New("no code"),
		"Unknown: a word":        status.Error(codes.Unknown, "Unknown: a word"),
		"Internal: of another":   status.Error(codes.NotFound, "Internal: of another"),
		"a NotFound: in between": status.Error(codes.NotFound, "a NotFound: in between"),
	} {
		if got := Of(err); got != want {
			t.Errorf("%q, not %q", got, want)
		}
	}
	if err := errors.New("no code"); Plain(err) != err || Plain(nil) != nil {
		t.Error("an error without a code changed")
	}
}

func TestATextThatIsNotUTF8CanBeSent(t *testing.T) {
	err := status.Error(codes.InvalidArgument, "no way: \xff\xfe/\xc3")
	for name, got := range map[string]string{"plain": status.Convert(Plain(err)).Message(), "of": Of(err), "text": Text("no way: \xff\xfe/\xc3")} {
		if got != "no way: \uFFFD/\uFFFD" {
			t.Errorf("%s: %q", name, got)
		}
	}
	if got := Text("ü\x00"); got != "ü\x00" {
		t.Errorf("%q", got)
	}
}
