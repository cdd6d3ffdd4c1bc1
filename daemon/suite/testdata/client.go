package client

import (
	"testing"

	"github.com/moby/buildkit/util/testutil/integration"
	"llbm/daemon/suite"
)

func init() { suite.Register() }

// TestSuite runs the functions of TestIntegration and TestClientGatewayIntegration without their mirrors of images, which need
// a registry.
func TestSuite(t *testing.T) {
	functions := append(append([]func(*testing.T, integration.Sandbox){}, allTests...), validationTests...)
	integration.Run(t, append(integration.TestFuncs(functions...), diffOpTestCases()...))
	security := integration.WithMatrix("secmode", map[string]interface{}{
		"sandbox": securitySandbox, "insecure": securityInsecure,
	})
	integration.Run(t, integration.TestFuncs(testSecurityMode, testSecurityModeSysfs, testSecurityModeErrors), security)
	network := integration.WithMatrix("netmode", map[string]interface{}{"default": defaultNetwork, "host": hostNetwork})
	integration.Run(t, integration.TestFuncs(testHostNetworking), network)
	names := integration.WithMatrix("netmode", map[string]interface{}{"dns": bridgeDNSNetwork})
	integration.Run(t, integration.TestFuncs(testBridgeNetworkingDNSNoRootless), names)
	runGateway(t)
}

func runGateway(t *testing.T) {
	integration.Run(t, integration.TestFuncs(
		testClientGatewaySolve, testClientGatewayFailedSolve, testClientGatewayEmptySolve, testNoBuildID,
		testUnknownBuildID, testClientGatewayContainerExecPipe, testClientGatewayContainerCancelOnRelease,
		testClientGatewayContainerPID1Fail, testClientGatewayContainerPID1Exit, testClientGatewayContainerMounts,
		testClientGatewayContainerSecretEnv, testClientGatewayContainerPID1Tty,
		testClientGatewayContainerCancelPID1Tty, testClientGatewayContainerExecTty,
		testClientGatewayContainerCancelExecTty, testClientSlowCacheRootfsRef,
		testClientGatewayContainerPlatformPATH, testClientGatewayExecError, testClientGatewaySlowCacheExecError,
		testClientGatewayExecFileActionError, testClientGatewayContainerExtraHosts,
		testClientGatewayContainerSignal, testWarnings, testClientGatewayNilResult, testClientGatewayEmptyImageExec,
	))
	security := integration.WithMatrix("secmode", map[string]interface{}{
		"sandbox": securitySandbox, "insecure": securityInsecure,
	})
	integration.Run(t, integration.TestFuncs(
		testClientGatewayContainerSecurityModeCaps, testClientGatewayContainerSecurityModeValidation,
	), security)
	network := integration.WithMatrix("netmode", map[string]interface{}{"default": defaultNetwork, "host": hostNetwork})
	integration.Run(t, integration.TestFuncs(
		testClientGatewayContainerHostNetworkingAccess, testClientGatewayContainerHostNetworkingValidation,
	), network)
}
