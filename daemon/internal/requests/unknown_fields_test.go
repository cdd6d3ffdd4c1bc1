package requests

import (
	"fmt"
	"testing"

	"google.golang.org/grpc/codes"
	"google.golang.org/grpc/status"
	"google.golang.org/protobuf/encoding/protowire"
)

func TestUnknownFieldsAreRefusedByTheirNumbers(t *testing.T) {
	rest := protowire.AppendVarint(protowire.AppendTag(nil, 99, protowire.VarintType), 1)
	rest = protowire.AppendBytes(protowire.AppendTag(rest, 20, protowire.BytesType), []byte("x"))
	rest = protowire.AppendFixed64(protowire.AppendTag(rest, 99, protowire.Fixed64Type), 1)
	if got := fmt.Sprint(Unknown(rest)); got != "[20 99]" {
		t.Error(got)
	}
	err := CheckFields("Request", rest, 20)
	if status.Code(err) != codes.Unimplemented || status.Convert(err).Message() != "llbmd does not know field 99 of Request, which the client sets" {
		t.Error(err)
	}
	if err := CheckFields("Request", rest, 20, 99); err != nil {
		t.Error(err)
	}
	if err := CheckFields("Request", nil); err != nil {
		t.Error(err)
	}
	if got := fmt.Sprint(Unknown([]byte{0xff})); got != "[0]" {
		t.Error(got)
	}
}
