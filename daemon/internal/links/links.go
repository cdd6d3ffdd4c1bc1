// Package links resolves paths with symbolic links within a root, as BuildKit does.
package links

import (
	"errors"
	"path"
	"strings"
)

const (
	// mostWalked is how many links are followed for a path, and MostOfKernel how many the kernel follows for one.
	mostWalked   = 255
	MostOfKernel = 40
)

// ErrTooMany is why a path is not resolved.
var ErrTooMany = errors.New("too many links")

// ErrHost is why a path is not resolved: what BuildKit finds depends on what is on its own host, outside of the root.
var ErrHost = errors.New("BuildKit looks for the target of a symbolic link on its host")

// A Read returns the target of the link at a path, which begins with `/` and is clean; "" if there is no link.
type Read func(path string) (target string, err error)

// Resolve returns where a path leads within the root, all links on it followed, also the last one: it begins with `/` and is clean. What
// is not there is no link.
func Resolve(text string, read Read) (string, error) {
	if text == "" {
		return "/", nil
	}
	w := walker{read: read}
	for {
		before := w.walked
		next, _, err := w.walk(text)
		if err != nil {
			return "", err
		}
		if text = next; w.walked == before {
			return path.Join("/", text), nil
		}
	}
}

// Parents does the same, but does not follow what is at the path itself.
func Parents(text string, read Read) (string, error) {
	above, name := path.Split(path.Join("/", text))
	if name == "" {
		return "/", nil
	}
	above, err := Resolve(above, read)
	return path.Join(above, name), err
}

// A walker counts the links that it follows.
type walker struct {
	read   Read
	walked int
}

// link returns the target of what is at a path, or else the path. Its parents are real if none of them may be a link.
func (w *walker) link(at string, isReal bool) (to string, isLink bool, err error) {
	if w.walked > mostWalked {
		return "", false, ErrTooMany
	}
	place := path.Join("/", at)
	if at = place; at == "/" {
		return at, false, nil
	}
	if !isReal {
		if place, err = w.place(at); err != nil {
			return at, false, err
		}
	}
	target, err := w.read(place)
	if err != nil || target == "" {
		return at, false, err
	}
	w.walked++
	return target, true, nil
}

// place returns where the kernel finds a path whose parents may be links that were not walked yet: BuildKit asks it for the path as it is,
// so it follows them from the root of the host.
func (w *walker) place(at string) (string, error) {
	now, todo := "/", strings.Split(at[1:], "/")
	for count := 0; len(todo) > 0; {
		name := todo[0]
		todo = todo[1:]
		switch name {
		case "", ".":
			continue
		case "..":
			if now == "/" {
				return "", ErrHost
			}
			now = path.Dir(now)
			continue
		}
		next := path.Join(now, name)
		if len(todo) == 0 {
			return next, nil
		}
		target, err := w.read(next)
		if err != nil {
			return "", err
		}
		if target == "" {
			now = next
			continue
		}
		if count++; count > MostOfKernel {
			return "", ErrTooMany
		}
		if strings.HasPrefix(target, "/") {
			return "", ErrHost
		}
		todo = append(strings.Split(target, "/"), todo...)
	}
	return now, nil
}

// walk follows the links of a path once, from the left to the right. A target is not walked itself; where there was none, the path that
// is returned is real.
func (w *walker) walk(text string) (to string, isReal bool, err error) {
	above, name := path.Split(text)
	switch {
	case above == "":
		to, isLink, err := w.link(name, true)
		return to, !isLink, err
	case name == "":
		if above == "/" {
			return above, true, nil
		}
		return w.walk(above[:len(above)-1])
	}
	above, isReal, err = w.walk(above)
	if err != nil {
		return "", false, err
	}
	to, isLink, err := w.link(path.Join(above, name), isReal)
	if err != nil || !isLink {
		return to, isReal, err
	}
	if !strings.HasPrefix(to, "/") {
		to = path.Join(above, to)
	}
	return to, false, nil
}
