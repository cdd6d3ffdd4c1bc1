package machine

import (
	"bufio"
	"context"
	"errors"
	"io"
	"strings"
	"testing"
	"time"
)

// said starts a shell as a helper, and returns its first line, or why it stopped talking.
func said(t *testing.T, limits Limits, script string) (string, string) {
	t.Helper()
	helper, err := FindHelper("/bin/sh", limits)
	if err != nil {
		t.Fatal(err)
	}
	talk, err := helper.Talk(context.Background(), "-c", script)
	if err != nil {
		t.Fatal(err)
	}
	defer talk.Stop()
	line, err := bufio.NewReader(talk).ReadString('\n')
	if err != nil {
		return line, talk.Why(err)
	}
	return line, ""
}

func TestAHelperTalks(t *testing.T) {
	helper, err := FindHelper("/bin/cat", Limits{})
	if err != nil {
		t.Fatal(err)
	}
	talk, err := helper.Talk(context.Background())
	if err != nil {
		t.Fatal(err)
	}
	defer talk.Stop()
	if _, err := io.WriteString(talk.In, "a line\n"); err != nil {
		t.Fatal(err)
	}
	if line, err := bufio.NewReader(talk).ReadString('\n'); line != "a line\n" || err != nil {
		t.Errorf("%q %v", line, err)
	}
}

func TestWhyAHelperStopsTalking(t *testing.T) {
	for script, one := range map[string]struct {
		limits Limits
		want   string
	}{
		"exec sleep 100000":                                      {Limits{Time: time.Millisecond}, "it takes longer than 1ms"},
		"exec head -c 100000 /dev/zero":                          {Limits{Output: 1000}, "it writes more than 1000 bytes"},
		"echo 'fatal error: runtime: out of memory' >&2; exit 2": {Limits{Memory: 1 << 30}, "it needs more memory than 1073741824 bytes"},
		"echo no >&2; exit 3":                                    {Limits{}, "sh: exit status 3: no"},
		"kill -9 $$":                                             {Limits{}, "sh: signal: killed"},
		"exit 0":                                                 {Limits{}, "EOF"},
	} {
		if line, why := said(t, one.limits, script); line != "" || !strings.HasPrefix(why, one.want) {
			t.Errorf("%s: %q %q", script, line, why)
		}
	}
}

// The bounds hold before a helper is sent anything.
func TestAHelperHasTheBoundOfMemory(t *testing.T) {
	helper, err := FindHelper("/bin/sh", Limits{Memory: 1 << 30})
	if err != nil {
		t.Fatal(err)
	}
	talk, err := helper.Talk(context.Background(), "-c", "read line; ulimit -d; echo $GOMEMLIMIT")
	if err != nil {
		t.Fatal(err)
	}
	defer talk.Stop()
	if _, err := io.WriteString(talk.In, "a line\n"); err != nil {
		t.Fatal(err)
	}
	if got, err := io.ReadAll(talk); string(got) != "1048576\n805306368\n" || err != nil {
		t.Errorf("%q %v", got, err)
	}
}

func TestAHelperEndsWithItsContext(t *testing.T) {
	helper, err := FindHelper("/bin/sh", Limits{})
	if err != nil {
		t.Fatal(err)
	}
	ctx, cancel := context.WithCancel(context.Background())
	talk, err := helper.Talk(ctx, "-c", "exec sleep 100000")
	if err != nil {
		t.Fatal(err)
	}
	cancel()
	if _, err := io.ReadAll(talk); err != nil && !errors.Is(err, io.EOF) {
		t.Log(err)
	}
	talk.Stop()
}
