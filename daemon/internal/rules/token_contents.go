package rules

import (
	"bytes"

	"llbm/daemon/internal/archives"
	"llbm/daemon/internal/contents"
)

// A Given is what is known of a content for which the text of a tree has a token.
type Given struct {
	Token     []byte `json:"token"`
	Text      []byte `json:"text,omitempty"`       // the content, if IsText
	IsText    bool   `json:"is_text,omitempty"`    // whether the content is known
	IsArchive bool   `json:"is_archive,omitempty"` // whether BuildKit unpacks it
	Target    []byte `json:"target,omitempty"`     // of a symbolic link
}

// A Known has what is known of contents, by their tokens.
type Known map[string]*Given

// KnownOf returns what is known of contents.
func KnownOf(all []Given) Known {
	found := Known{}
	for i := range all {
		found[string(all[i].Token)] = &all[i]
	}
	return found
}

// isToken is whether a content is a token, or has some.
func (c content) isToken() bool { return bytes.IndexByte([]byte(c.text), contents.Mark) >= 0 }

// known returns the bytes of a content, if they are known.
func (c content) known() ([]byte, bool) {
	switch {
	case c.given != nil:
		return c.given.Text, c.given.IsText
	case c.isToken():
		return nil, false
	}
	return []byte(c.text), true
}

// isArchive is whether BuildKit unpacks a content.
func (c content) isArchive() bool {
	switch {
	case c.given != nil:
		return c.given.IsArchive
	case c.isToken():
		return false // of a content from which an archive may be unpacked this is given
	}
	return archives.Is(bytes.NewReader([]byte(c.text)))
}
