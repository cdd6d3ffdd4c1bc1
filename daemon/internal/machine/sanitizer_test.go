package machine

import (
	"context"
	"slices"
	"testing"
)

func TestTheProgramWithoutProofIsBoundedByItsSanitizer(t *testing.T) {
	for _, c := range []struct {
		program Program
		want    string
	}{
		{Program{Path: "/bin/true"}, "ASAN_OPTIONS=disable_coredump=0"},
		{Program{Path: "/bin/true", Limits: Limits{Memory: 3 << 20}}, "ASAN_OPTIONS=disable_coredump=0:hard_rss_limit_mb=3"},
		{Program{Path: "/bin/true", Limits: Limits{Memory: 1}}, "ASAN_OPTIONS=disable_coredump=0:hard_rss_limit_mb=1"},
	} {
		run, err := c.program.start(context.Background(), nil, nil, nil)
		if err != nil || !slices.Contains(run.cmd.Env, c.want) {
			t.Errorf("%v: %v, without %s (%v)", c.program.Limits, run.cmd.Env, c.want, err)
		}
	}
}
