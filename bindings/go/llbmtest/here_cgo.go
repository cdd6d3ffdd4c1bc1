//go:build cgo

package llbmtest

import (
	"fmt"

	llbm "llbm.example/llbm/bindings/go"
)

// runHere solves the graph in this process.
func (s *solving) runHere() (string, error) {
	m, err := llbm.New()
	if err != nil {
		return "", fmt.Errorf("%w: %v", errNothing, err)
	}
	defer m.Close()
	for name, text := range s.trees {
		if err := m.AddLocal(name, text); err != nil {
			return "", err
		}
	}
	return m.Run(s.definition)
}
