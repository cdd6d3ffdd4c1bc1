// Package advice has the next step for each refusal of the daemon, which its message has on a second line.
package advice

import (
	"regexp"
	"strings"

	"google.golang.org/grpc/codes"
	"google.golang.org/grpc/status"
)

// A row has the next step for messages that are like a pattern.
type row struct {
	pattern *regexp.Regexp
	next    string
}

func of(pattern, next string) row { return row{regexp.MustCompile(pattern), next} }

// What several rows say.
const (
	byClient  = "BuildKit's own clients do not ask for this: the program that called has to change what it asks for"
	afterSome = "try again when one of them has ended"
	ofStore   = "llbmd's option -store-bytes raises the bound, -store names another disk, and `buildctl prune` frees what is kept"
	ofFaults  = "docs/FAULTS.md says what the fault is and what to do; llbm-tools explain says it of this line"
	ofNames   = "rename it, or leave it out with .dockerignore"
	ofTools   = "llbm-tools tree from image reads the same image, and says what is in it; skopeo copy makes it anew"
	ofKept    = "llbmd's option -keep keeps the build, and llbm-tools explain run goes through it (docs/DAEMON.md, \"A build afterwards\")"
	ofClient  = "see whether the client still runs and reads; llbmd's option -idle raises the bound"
	ofOptions = "docs/DAEMON.md, \"What it supports\", has the options of exporters"
	ofPolicy  = "see the rules of the source policy"
	ofSmaller = "split the build, or leave out of its sources what it does not need (.dockerignore)"
	ofLimits  = "llbmd's options -memory, -time and -output raise the bounds"
)

// rows are in order: the first one that fits counts.
var rows = []row{
	// Images and other sources.
	of(`^image .*: the client sent nothing`, ofClient),
	of(`^(image|local source) .*: .*(llbmd -leave-out leaves it out)`, "the option -leave-out of llbmd builds without it, with a warning"),
	of(`^image .*(no match for platform|not found)`, "--platform asks for one that the image has; `skopeo inspect --raw` lists its platforms"),
	of(`^image `, ofTools),
	of(`no file \*\.rules|^the rules of |the rules are in a directory`, "docs/TOOLS.md has the form of rules, and docs/DAEMON.md where a client has them"),

	of(`^local source .*: (the client sent nothing|.* bytes came of|more than its .* bytes came)`, ofClient),
	of(`^local source .*: (more than .* entries|its paths have more)|^(more than .* entries|its paths have more)`, ofSmaller),
	of(`^local source .*fault 26`, ofNames),
	of(`^local source .*links have tokens`, "leave its links out with .dockerignore, or put the copies of other sources into a stage of their own"),
	of(`^local source .*: .* is "`, byClient),
	of(`^local source `, "see what the client sends: `buildctl --debug build` prints it"),
	of(`fault 121`, "give the client the directory: --local NAME=DIRECTORY of buildctl, or the context of docker buildx"),
	of(`becomes|could not|ref .* updated to`, ofPolicy),
	of(`denied by policy|nil (rule|selector|constraint|source policy)`, ofPolicy),
	// Executions and other ops.
	of(`network\.host is not allowed|security\.insecure is not allowed`,
		"leave out --network and --security, give the RUN a stand-in by -rules, or start llbmd with -literal"),
	of(`failed to load LLB`, "a mount of each execution has to be at / itself"),
	of(`the build is strict`, "without -strict and llbm:strict=true this is a warning"),
	of(`fault 185`, "leave out of the source what the build does not need (.dockerignore)"),
	of(`^llbm: failed`, ofKept),
	of(`^llbm: the build (took|wrote|needs)`, ofLimits),
	of(`^llbm: .*(leads through|symbolic links)`, "name the path to which the link leads; docs/DAEMON.md, \"Links\", says which are followed"),
	of(`^llbm: fault 88 \d+ (SecretMount|SshMount|SecretEnv)`,
		"give the RUN a stand-in by -rules, which leaves it out; with -run skip so does a RUN that is no script"),
	of(`^llbm: `, ofFaults),
	// Exporters.
	of(`has no attestations|attest`, "leave out --attest and --sbom; --provenance=false builds without it"),
	of(`docker exporter does not`, "--output type=oci takes several platforms"),
	of(`^exporter `, ofOptions),
	of(`annotation`, "--annotation names where it goes: manifest:, index:, manifest-descriptor: or index-descriptor:"),
	of(`invalid (null )?image config`, "the frontend gives the configuration: correct it there"),
	of(`platform|failed to find ref`, "the frontend has to return a result for each platform that it names"),
	of(`cannot overwrite`, "without platform-split=false each platform has a folder of its own"),
	of(`a layer of an image can't have a name`, "rename it in the build, or export it by type=tar"),
	of(`the client took nothing`, ofClient),
	// Frontends.
	of(`no frontend`, "-frontend NAME=PROGRAM of llbmd adds one: dev/dev daemon --clients builds that of Dockerfiles"),
	of(`frontend .*(its options|the option)`, "a file of a source has room for more"),
	of(`frontends of the build run`, "see why the frontend calls itself again and again"),
	of(`no containers for frontends`, "a frontend that starts processes in containers does not run on llbmd"),
	of(`results that are returned with Solve|did not return default result`, byClient),
	of(`^(lstat .*|.* is (not )?a directory)`, "the frontend looks for a file that the result has not: see the COPY before it"),
	of(`bytes are read at once`, "ask for a range of the file"),
	// The build, its messages and its session.
	of(`does not know field`, "use a client of BuildKit v0.13, or leave the option out that sets the field"),
	of(`entitlement `, "leave --allow out: llbm starts no processes"),
	of(`is no ref of a build|has no ref|no buildid|has no ID|source is required|invalid source range|has returned|no result`, byClient),
	of(`a build .* is there already|is open already`, "each build and each session has a name of its own"),
	of(`builds run, and no more may|sessions are open, and no more may`, afterSome),
	of(`hold(s)? .* bytes in memory|results, and no more may be kept`, ofSmaller),
	of(`no session|no such job`, "see whether the client still runs: its session ends with it"),
	of(`pinned`, "unpin one of them: `buildctl debug histories` lists them"),
	of(`history`, "`buildctl debug histories` lists the builds that are there"),
	of(`the listener is`, "listen again, and read what comes"),
	of(`no filters`, "ask without filters"),
	of(`is not served by this llbmd`, "each user starts an llbmd of its own"),
	of(`peer|credential|connection`, "connect to the socket of llbmd on this host"),
	of(`the store of contents`, ofStore),
	of(`it is (true or false|skip or refuse)`, "write one of both"),
	of(`^"`, "a pattern has the form of path.Match of Go"),
}

// Of returns the next step for a refusal, and whether a row has it.
func Of(message string) (next string, ok bool) {
	for _, one := range rows {
		if one.pattern.MatchString(message) {
			return one.next, true
		}
	}
	return "docs/DAEMON.md, \"What it supports\", says what the daemon takes", false
}

// refusals are the codes of what was asked for and can't be done.
var refusals = map[codes.Code]bool{
	codes.Unimplemented: true, codes.InvalidArgument: true, codes.FailedPrecondition: true, codes.ResourceExhausted: true, codes.PermissionDenied: true,
	codes.DeadlineExceeded: true, codes.NotFound: true, codes.AlreadyExists: true, codes.Unauthenticated: true,
}

// IsRefusal is whether a code is that of a refusal.
func IsRefusal(code codes.Code) bool { return refusals[code] }

// Add adds the next step to the error of a refusal, unless its message has a second line. The details of the error stay.
func Add(err error) error {
	st, ok := status.FromError(err)
	if err == nil || !ok || !IsRefusal(st.Code()) || strings.Contains(st.Message(), "\n") {
		return err
	}
	proto := st.Proto()
	next, _ := Of(proto.Message)
	proto.Message += "\n" + next
	return status.ErrorProto(proto)
}
