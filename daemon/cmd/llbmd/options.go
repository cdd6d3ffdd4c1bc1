package main

import (
	"errors"
	"flag"
	"fmt"
	"io"
	"math"
	"os"
	"runtime"
	"time"

	"llbm/daemon/internal/frontends"
	"llbm/daemon/internal/images"
	"llbm/daemon/internal/peers"
	"llbm/daemon/internal/server"
	"llbm/daemon/internal/standins"
)

const usage = `llbmd -addr PATH [OPTION..]

Speaks BuildKit's API on the unix socket PATH, which gets the mode 0600, and builds with the program llbm: docs/DAEMON.md.
It serves its own user and root, ends at SIGTERM or SIGINT, and writes messages to standard error.

`

// options are those of the command line.
type options struct {
	server.Options
	address    string
	version    bool
	notes      string
	keep       string
	keepBuilds int
	keepBytes  int64
}

// parse reads the options. If help is asked for it writes that, and fails with flag.ErrHelp.
func parse(words []string, help io.Writer) (*options, error) {
	o := &options{}
	flags := o.flags()
	flags.SetOutput(io.Discard) // the error says what is wrong
	flags.Usage = func() {}
	err := flags.Parse(words)
	switch {
	case errors.Is(err, flag.ErrHelp):
		fmt.Fprint(help, usage)
		flags.SetOutput(help)
		flags.PrintDefaults()
		return nil, err
	case err != nil:
		return nil, err
	case flags.NArg() > 0:
		return nil, fmt.Errorf("%q is no option", flags.Arg(0))
	case o.version:
		return o, nil
	}
	return o, o.check()
}

// flags are the options with what is said of each.
func (o *options) flags() *flag.FlagSet {
	o.Frontends, o.Images = &frontends.Frontends{}, &images.Catalog{}
	f := flag.NewFlagSet("llbmd", flag.ContinueOnError)
	f.StringVar(&o.address, "addr", "", "the `PATH` of the socket, or unix://PATH")
	f.StringVar(&o.Program, "llbm", "llbm", "the `PROGRAM` llbm")
	f.StringVar(&o.Rules, "comparison", "", "the `PROGRAM` llbm-rules, which has BuildKit's rules, instead of the one beside llbmd")
	f.Func("rules", "a `FILE` of rules, as of llbm-tools adopt, which give executions scripts of llbm to run; may be repeated", o.readRules)
	f.Func("run", "`skip` or refuse: executions that are no scripts, and that no rule names, do nothing, with a warning, or are refused", o.setRun)
	f.IntVar(&o.Workers, "workers", 1, "the number of workers of each build, 1 to 64")
	f.IntVar(&o.AtOnce, "builds", runtime.NumCPU(), "how many builds run at once; others wait")
	f.Var(o.Frontends, "frontend", "`NAME=PROGRAM`: a frontend that speaks the gateway on its standard input and output; may be repeated")
	f.Var(o.Images, "image", "`NAME=PLACE`: an image, from a directory, an OCI layout or an archive of one; may be repeated")
	f.Var(images.Folders{Catalog: o.Images}, "images", "a `FOLDER` of images, whose files and directories have the images' names; may be repeated")
	f.StringVar(&o.Store, "store", os.TempDir(), "the `FOLDER` for contents of sources; they have no names there, so nothing is left")
	f.Int64Var(&o.StoreBytes, "store-bytes", 0, "how many `BYTES` the contents may have; 0 is half of what is free there at the start, 64 MiB to 10 GiB")
	f.DurationVar(&o.Idle, "idle", time.Minute, "how long a client may send nothing while it sends a source, or take nothing of a result")
	f.BoolVar(&o.LeaveOut, "leave-out", false, "leave devices and sockets out of sources, with a warning, instead of refusing them")
	f.Int64Var(&o.Limits.Memory, "memory", 4<<30, "how many `BYTES` of memory a build or a frontend may take; 0 is no bound")
	f.DurationVar(&o.Limits.Time, "time", 10*time.Minute, "how long the program may run for a build; 0 is no bound")
	f.Int64Var(&o.Limits.Output, "output", 256<<20, "how many `BYTES` the program may write for a build; 0 is no bound")
	f.StringVar(&o.keep, "keep", "", "a `FOLDER` in which the last builds are kept, to be looked at: FOLDER/REF/last")
	f.IntVar(&o.keepBuilds, "keep-builds", 20, "how many builds are kept")
	f.Int64Var(&o.keepBytes, "keep-bytes", 1<<30, "how many `BYTES` the kept builds may have")
	f.BoolVar(&o.Literal, "literal", false, "run definitions by llbm's rules also where BuildKit's differ and could be kept by rewriting ops")
	f.BoolVar(&o.Strict, "strict", false, "fail a build of which BuildKit would make something else, instead of warning of that")
	f.StringVar(&o.notes, "notes", "", "a `FILE` with fields without an effect, for warnings, instead of the table that is built in")
	f.BoolVar(&o.version, "version", false, "print the version, and end")
	return f
}

// readRules adds the rules of a file.
func (o *options) readRules(path string) error {
	data, err := os.ReadFile(path)
	if err != nil {
		return err
	}
	rules, err := standins.Read(data)
	o.StandIns.Rules = append(o.StandIns.Rules, rules...)
	return err
}

// setRun says what executions do that are refused otherwise.
func (o *options) setRun(text string) error {
	if text != "skip" && text != "refuse" {
		return errors.New("it is skip or refuse")
	}
	o.StandIns.Skips = text == "skip"
	return nil
}

// check refuses options that make no sense.
func (o *options) check() error {
	if o.address == "" {
		return errors.New("-addr PATH is missing: the path of the socket")
	}
	if _, err := peers.Path(o.address); err != nil {
		return fmt.Errorf("-addr: %w", err)
	}
	for _, one := range []struct {
		name               string
		value, least, most int64
	}{
		{"workers", int64(o.Workers), 1, server.MostWorkers},
		{"builds", int64(o.AtOnce), 1, math.MaxInt64},
		{"store-bytes", o.StoreBytes, 0, math.MaxInt64},
		{"memory", o.Limits.Memory, 0, math.MaxInt64},
		{"output", o.Limits.Output, 0, math.MaxInt64},
		{"keep-builds", int64(o.keepBuilds), 1, math.MaxInt64},
		{"keep-bytes", o.keepBytes, 1, math.MaxInt64},
	} {
		if one.value < one.least {
			return fmt.Errorf("-%s %d: it is at least %d", one.name, one.value, one.least)
		}
		if one.value > one.most {
			return fmt.Errorf("-%s %d: it is at most %d", one.name, one.value, one.most)
		}
	}
	if o.Idle <= 0 {
		return fmt.Errorf("-idle %s: it is longer than 0", o.Idle)
	}
	if o.Limits.Time < 0 {
		return fmt.Errorf("-time %s: it is at least 0", o.Limits.Time)
	}
	return nil
}
