package sources

import (
	"bytes"
	"errors"
	"io"
	"os"
	"strings"
	"testing"

	fstypes "github.com/tonistiigi/fsutil/types"
	"llbm/daemon/internal/contents"
)

func TestDevicesAreLeftOutIfAskedAndLinksAreTaken(t *testing.T) {
	client := sends(nil, symlink("a", "b/c"), dir("b"), stat("b/c", os.ModeDevice, 0), stat("d", 0o600, 0), symlink("e", "b/c"), symlink("f", "d"), last)
	m, err := Receive(client, newStore(t, 100), Options{LeaveOut: true})
	if err != nil || m.Left != 1 || strings.Join(m.LeftOut, ", ") != "b/c (a special file)" || m.FirstLink != "a" {
		t.Fatalf("%+v %v", m, err)
	}
	if err := m.WriteByValue(io.Discard, nil, false); !errors.Is(err, HasLink("a")) {
		t.Error(err)
	}
	table := contents.NewTable()
	defer table.Close()
	var out bytes.Buffer
	if err := m.WriteByReference(&out, table, nil); err != nil {
		t.Fatal(err)
	}
	const first, second = "ff00000000", "ff00000001"
	want := "d 0755 0 0 /\nf 0777 0 0 " + first + " /a\nd 0755 0 0 /b\nf 0600 0 0 - /d\nf 0777 0 0 " + first + " /e\nf 0777 0 0 " + second + " /f\n"
	if out.String() != want {
		t.Error(out.String())
	}
	content, err := table.Content([]byte{0xff, 0, 0, 0, 1})
	if err != nil || content.Link != "d" || content.Size != 0 {
		t.Error(content, err)
	}
	if _, err := table.Content([]byte{0xff, 0, 0, 0, 1, 'x'}); err == nil || !strings.Contains(err.Error(), `a symbolic link to "d" was read as a file`) {
		t.Error(err)
	}
}

func symlink(path, target string) *fstypes.Packet {
	p := stat(path, os.ModeSymlink|0o777, int64(len(target)))
	p.Stat.Linkname = target
	return p
}
