package dockerfile

import (
	"testing"

	"github.com/moby/buildkit/util/testutil/integration"
	"llbm/daemon/suite"
)

func init() { suite.Register() }

// TestSuite runs the functions of TestIntegration without their mirrors of images, which need a registry.
func TestSuite(t *testing.T) {
	frontends := integration.WithMatrix("frontend", map[string]interface{}{
		"builtin": &builtinFrontend{}, "client": &clientFrontend{},
	})
	for _, tests := range [][]integration.Test{allTests, heredocTests, outlineTests, targetsTests, reproTests} {
		integration.Run(t, tests, frontends)
	}
	insecure := integration.WithMatrix("security.insecure", map[string]interface{}{
		"granted": securityInsecureGranted, "denied": securityInsecureDenied,
	})
	integration.Run(t, securityTests, frontends, insecure)
	host := integration.WithMatrix("network.host", map[string]interface{}{
		"granted": networkHostGranted, "denied": networkHostDenied,
	})
	integration.Run(t, networkTests, frontends, host)
}
