package inputs

import (
	"errors"
	"io"
	"slices"

	"google.golang.org/grpc/codes"
	"google.golang.org/grpc/status"
	"llbm/daemon/internal/contents"
	"llbm/daemon/internal/gathering"
	"llbm/daemon/internal/graph"
	"llbm/daemon/internal/machine"
	"llbm/daemon/internal/plan"
	"llbm/daemon/internal/sources"
)

// mostOfText is the longest text of a tree that llbm takes.
const mostOfText = 64 << 20

// writeTexts writes the texts of all sources: by reference, or by value where llbm has to have the contents themselves.
func (in *Inputs) writeTexts(plan *plan.Plan, g *graph.Graph) error {
	if err := plan.Wait(); err != nil {
		return err
	}
	in.wanted = wantedOf(g)
	if len(in.gathered.All) > 0 && g.Canonical && !plan.IsMarked() {
		table := contents.NewTable()
		err := in.write(func(one *gathering.Input, to io.Writer) error {
			if slices.ContainsFunc(one.Vertices, func(v int) bool { return plan.IsByValue(g, v) }) {
				return writeValue(one, to, table)
			}
			return one.Manifest.WriteByReference(to, table, in.note)
		})
		var mark sources.HasMark
		if !errors.As(err, &mark) {
			in.table = table
			in.addLinks(table)
			return err
		}
		in.closeTexts()
		table.Close()
		in.Known = nil
	}
	return in.write(func(one *gathering.Input, to io.Writer) error { return writeValue(one, to, nil) })
}

// writeValue writes a source by value, with tokens for its links alone.
func writeValue(one *gathering.Input, to io.Writer, table *contents.Table) error {
	if one.Manifest.Bytes > mostOfText/2 {
		return status.Errorf(
			codes.ResourceExhausted, "llbm: fault 185 TooLong: %s has to be given by value, and has %d bytes", one.What(), one.Manifest.Bytes)
	}
	err := one.Manifest.WriteByValue(to, table, false)
	var link sources.HasLink
	if errors.As(err, &link) {
		return status.Errorf(codes.Unimplemented,
			"local source %s: %v: links have tokens, and this build can't have any, since the byte 255 is in a content that llbm has to know", one.Name(), err)
	}
	return err
}

// write writes the text of each source into a file in memory.
func (in *Inputs) write(text func(*gathering.Input, io.Writer) error) error {
	for _, one := range in.gathered.All {
		file, err := machine.InMemory("source")
		if err != nil {
			return err
		}
		in.texts = append(in.texts, machine.Source{Name: one.Given, Text: file})
		if err := text(one, &limited{to: file, left: mostOfText, hold: in.hold}); err != nil {
			if errors.Is(err, errTooLong) {
				err = status.Errorf(codes.ResourceExhausted, "llbm: fault 185 TooLong: the text of %s", one.What())
			}
			return err
		}
	}
	return nil
}

var errTooLong = errors.New("the text is too long")

// limited refuses more bytes than llbm takes, and counts them.
type limited struct {
	to   io.Writer
	left int
	hold func(n int) error
}

func (l *limited) Write(data []byte) (int, error) {
	if l.left -= len(data); l.left < 0 {
		return 0, errTooLong
	}
	if err := l.hold(len(data)); err != nil {
		return 0, err
	}
	return l.to.Write(data)
}

// hold counts bytes of a text, which is in memory.
func (in *Inputs) hold(n int) error {
	err := in.count(n)
	if err == nil {
		in.held += n
	}
	return err
}
