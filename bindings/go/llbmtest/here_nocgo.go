//go:build !cgo

package llbmtest

import "fmt"

// runHere solves nothing: without cgo the library can't be called.
func (s *solving) runHere() (string, error) { return "", fmt.Errorf("%w: cgo is off", errNothing) }
