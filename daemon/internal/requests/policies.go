package requests

import (
	spb "github.com/moby/buildkit/sourcepolicy/pb"
	"google.golang.org/grpc/codes"
	"google.golang.org/grpc/status"
)

// CheckPolicy refuses a policy with a part that is missing.
func CheckPolicy(policy *spb.Policy) error {
	for _, rule := range policy.GetRules() {
		if rule == nil {
			return status.Error(codes.InvalidArgument, "invalid nil rule in policy")
		}
		if rule.Selector == nil {
			return status.Error(codes.InvalidArgument, "invalid nil selector in policy")
		}
		for _, constraint := range rule.Selector.Constraints {
			if constraint == nil {
				return status.Error(codes.InvalidArgument, "invalid nil constraint in policy")
			}
		}
	}
	return nil
}
