package gateway

import (
	gatewaypb "github.com/moby/buildkit/frontend/gateway/pb"
	"github.com/moby/buildkit/solver/pb"
	"github.com/moby/buildkit/util/apicaps"
	apicapspb "github.com/moby/buildkit/util/apicaps/pb"
)

// What a client or a frontend may ask for. What is in neither list is unknown to them, and they refuse to ask for it.
var (
	llbCaps = []apicaps.CapID{
		pb.CapSourceLocal, pb.CapSourceLocalUnique, pb.CapSourceLocalSessionID, pb.CapSourceLocalIncludePatterns, pb.CapSourceLocalFollowPaths,
		pb.CapSourceLocalExcludePatterns, pb.CapSourceLocalSharedKeyHint, pb.CapSourceLocalDiffer,
		pb.CapExecMetaBase, pb.CapExecMetaProxy, pb.CapExecMetaNetwork, pb.CapExecMetaSecurity, pb.CapExecMetaCgroupParent,
		pb.CapExecMetaUlimit, pb.CapExecMetaRemoveMountStubsRecursive, pb.CapExecMetaSetsDefaultPath, pb.CapExecCgroupsMounted,
		pb.CapExecMountBind, pb.CapExecMountBindReadWriteNoOutput, pb.CapExecMountCache, pb.CapExecMountCacheSharing,
		pb.CapExecMountContentCache, pb.CapExecMountSelector, pb.CapExecMountTmpfs, pb.CapExecMountTmpfsSize,
		pb.CapFileBase, pb.CapFileRmWildcard, pb.CapFileRmNoFollowSymlink, pb.CapConstraints, pb.CapPlatform,
		pb.CapMetaIgnoreCache, pb.CapMetaDescription, pb.CapMetaExportCache, pb.CapMergeOp,
		pb.CapSourceDateEpoch, pb.CapMultipleExporters, pb.CapSourcePolicy,
		// A stand-in leaves these out of its execution; llbm refuses those that are left, by their number.
		pb.CapExecMountSecret, pb.CapExecMountSSH, pb.CapExecSecretEnv,
		// A policy may convert these to local sources, or the daemon has them; llbm refuses those that are left, by their number.
		pb.CapSourceImage, pb.CapSourceImageResolveMode, pb.CapSourceImageLayerLimit, pb.CapSourceGit, pb.CapSourceGitKeepDir,
		pb.CapSourceGitFullURL, pb.CapSourceGitHTTPAuth, pb.CapSourceGitKnownSSHHosts, pb.CapSourceGitMountSSHSock, pb.CapSourceGitSubdir,
		pb.CapSourceHTTP, pb.CapSourceHTTPChecksum, pb.CapSourceHTTPPerm, pb.CapSourceHTTPUIDGID, pb.CapSourceOCILayout,
	}
	noLLBCaps = []apicaps.CapID{
		pb.CapBuildOpLLBFileName, pb.CapExecMetaSecurityDeviceWhitelistV1,
		pb.CapFileCopyIncludeExcludePatterns, pb.CapDiffOp, pb.CapAnnotations, pb.CapAttestations,
		pb.CapRemoteCacheGHA, pb.CapRemoteCacheS3, pb.CapRemoteCacheAzBlob,
	}
	gatewayCaps = []apicaps.CapID{
		gatewaypb.CapSolveBase, gatewaypb.CapReadFile, gatewaypb.CapReturnResult, gatewaypb.CapReturnMap, gatewaypb.CapReadDir,
		gatewaypb.CapStatFile, gatewaypb.CapProtoRefArray, gatewaypb.CapReferenceOutput, gatewaypb.CapFrontendInputs,
		gatewaypb.CapGatewaySolveMetadata, gatewaypb.CapFrontendCaps, gatewaypb.CapGatewayEvaluateSolve, gatewaypb.CapGatewayEvaluate,
		gatewaypb.CapGatewayWarnings, gatewaypb.CapResolveImage, gatewaypb.CapResolveImageResolveMode, gatewaypb.CapSourceMetaResolver, gatewaypb.CapImportCaches,
	}
	noGatewayCaps = []apicaps.CapID{
		gatewaypb.CapSolveInlineReturn, gatewaypb.CapGatewayExec, gatewaypb.CapGatewayExecExtraHosts,
		gatewaypb.CapGatewayExecSecretEnv, gatewaypb.CapGatewayExecSignals, gatewaypb.CapAttestations,
	}
)

func caps(with, without []apicaps.CapID) []apicapspb.APICap {
	var out []apicapspb.APICap
	for _, id := range with {
		out = append(out, apicapspb.APICap{ID: string(id), Enabled: true})
	}
	for _, id := range without {
		out = append(out, apicapspb.APICap{ID: string(id), DisabledReasonMsg: "llbmd has no " + string(id)})
	}
	return out
}
