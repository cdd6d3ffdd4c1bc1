// Package messages has the messages of errors without what gRPC and each hop between frontends, the daemon and clients put before them:
// the name of the error's code. Clients show the code by themselves.
package messages

import (
	"context"
	"strings"

	"github.com/moby/buildkit/util/grpcerrors"
	"google.golang.org/grpc/codes"
	"google.golang.org/grpc/status"
)

// Of returns the plain message of an error.
func Of(err error) string {
	if err == nil {
		return ""
	}
	st := status.Convert(grpcerrors.ToGRPC(context.Background(), err))
	return Text(without(st.Code(), st.Message()))
}

// Plain returns an error of gRPC with its plain message; its code and its details stay.
func Plain(err error) error {
	st, ok := status.FromError(err)
	if err == nil || !ok {
		return err
	}
	proto := st.Proto()
	proto.Message = Text(without(st.Code(), st.Message()))
	return status.ErrorProto(proto)
}

// without removes the names of a code from a message, where the message or a part of it after a colon begins.
func without(code codes.Code, message string) string {
	names := []string{"rpc error: code = " + code.String() + " desc = "}
	if code != codes.Unknown { // no hop puts this one's name before a message
		names = append(names, code.String()+": ")
	}
	const colon = ": "
	message = colon + message
	for _, name := range names {
		for strings.Contains(message, colon+name) {
			message = strings.ReplaceAll(message, colon+name, colon)
		}
	}
	return strings.TrimPrefix(message, colon)
}

// Text returns a text without what is not UTF-8, as each text of a status, of progress and of the log has to be: messages of gRPC
// with other bytes can't be sent.
func Text(text string) string { return strings.ToValidUTF8(text, "\uFFFD") }
