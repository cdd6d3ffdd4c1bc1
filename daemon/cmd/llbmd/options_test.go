package main

import (
	"errors"
	"flag"
	"regexp"
	"strings"
	"testing"
	"time"

	"llbm/daemon/internal/machine"
)

func TestOptionsThatMakeNoSenseAreRefused(t *testing.T) {
	for words, want := range map[string]string{
		"":                        "-addr PATH is missing: the path of the socket",
		"-addr tcp://a:1":         `-addr: "tcp://a:1" is not the path of a socket`,
		"-addr s x":               `"x" is no option`,
		"-addr s -unknown":        "flag provided but not defined: -unknown",
		"-addr s -workers 0":      "-workers 0: it is at least 1",
		"-addr s -workers 65":     "-workers 65: it is at most 64",
		"-addr s -workers x":      `invalid value "x" for flag -workers: parse error`,
		"-addr s -builds 0":       "-builds 0: it is at least 1",
		"-addr s -memory -1":      "-memory -1: it is at least 0",
		"-addr s -time -1s":       "-time -1s: it is at least 0",
		"-addr s -output -1":      "-output -1: it is at least 0",
		"-addr s -store-bytes -1": "-store-bytes -1: it is at least 0",
		"-addr s -keep-bytes -1":  "-keep-bytes -1: it is at least 1",
		"-addr s -keep-builds 0":  "-keep-builds 0: it is at least 1",
		"-addr s -idle 0":         "-idle 0s: it is longer than 0",
		"-addr s -idle -1s":       "-idle -1s: it is longer than 0",
	} {
		if _, err := parse(strings.Fields(words), nil); err == nil || err.Error() != want {
			t.Errorf("%q: %v, not %q", words, err, want)
		}
	}
}

func TestOptionsAreRead(t *testing.T) {
	o, err := parse(strings.Fields("-addr unix://s -memory 0 -time 0 -output 0 -idle 1s -literal -keep k -keep-builds 3"), nil)
	if err != nil {
		t.Fatal(err)
	}
	given := o.address == "unix://s" && o.Idle == time.Second && o.Literal && o.keep == "k" && o.keepBuilds == 3
	if !given || o.Limits != (machine.Limits{}) || o.Workers != 1 {
		t.Errorf("%+v", o)
	}
}

func TestTheVersionIsOneLineAndNeedsNoSocket(t *testing.T) {
	o, err := parse([]string{"-version"}, nil)
	if err != nil || !o.version {
		t.Fatal(err)
	}
	if line := versions(); !regexp.MustCompile(`^llbmd v[0-9.]+\+llbm, built with \S.*$`).MatchString(line) {
		t.Error(line)
	}
}

func TestHelpSaysWhatIsBounded(t *testing.T) {
	var help strings.Builder
	if _, err := parse([]string{"-h"}, &help); !errors.Is(err, flag.ErrHelp) {
		t.Error(err)
	}
	for _, want := range []string{"llbmd -addr PATH [OPTION..]", "or take nothing of a result", "half of what is free there at the start, 64 MiB to 10 GiB"} {
		if !strings.Contains(help.String(), want) {
			t.Errorf("%q: no %q", help.String(), want)
		}
	}
}
