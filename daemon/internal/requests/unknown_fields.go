// Package requests refuses requests of clients whatever they ask for: with fields that this version of the API lacks, so that nothing is
// dropped in silence, and with policies that lack a part.
package requests

import (
	"sort"

	"google.golang.org/grpc/codes"
	"google.golang.org/grpc/status"
	"google.golang.org/protobuf/encoding/protowire"
)

// Unknown returns the numbers of the fields in the unknown records of a message, in ascending order.
func Unknown(rest []byte) []int {
	found := map[int]bool{}
	for len(rest) > 0 {
		number, _, n := protowire.ConsumeField(rest)
		if n < 0 {
			found[0] = true
			break
		}
		found[int(number)] = true
		rest = rest[n:]
	}
	var out []int
	for number := range found {
		out = append(out, number)
	}
	sort.Ints(out)
	return out
}

// CheckFields refuses a message with unknown fields other than the harmless ones.
func CheckFields(message string, rest []byte, harmless ...int) error {
	allowed := map[int]bool{}
	for _, number := range harmless {
		allowed[number] = true
	}
	for _, number := range Unknown(rest) {
		if !allowed[number] {
			return status.Errorf(codes.Unimplemented, "llbmd does not know field %d of %s, which the client sets", number, message)
		}
	}
	return nil
}
