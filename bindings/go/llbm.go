//go:build cgo

package llbm

// #cgo LDFLAGS: -ldl
// #include <stdlib.h>
// #include "llbm.h"
// const char *llbm_load(const char *path);
import "C"

import (
	"fmt"
	"math"
	"os"
	"runtime"
	"strings"
	"sync"
	"unsafe"
)

// Shared is the variable that names the shared object of the library.
const Shared = "LIBLLBM"

// load opens the shared object, unless the library is linked into the program.
var load = sync.OnceValue(func() error {
	if C.llb_version() != nil {
		return nil
	}
	name := os.Getenv(Shared)
	if name == "" {
		name = "libllbm.so"
	}
	path := C.CString(name)
	defer C.free(unsafe.Pointer(path))
	if why := C.llbm_load(path); why != nil {
		return fmt.Errorf("%s; %s has to name the shared object that llbm-tools library makes", C.GoString(why), Shared)
	}
	return nil
})

// Version returns the line that the program prints as its version; it says `not proved` if the library was compiled without
// proof. It fails if there is no library.
func Version() (string, error) {
	if err := load(); err != nil {
		return "", err
	}
	return C.GoString(C.llb_version()), nil
}

// A Machine has local trees and at most one session. Its calls are made by a thread of its own, one after
// another, so goroutines may share it.
type Machine struct {
	calls chan func(*C.llb)
	end   sync.Once
}

// New makes a machine without local trees. It ends with Close. It fails if there is no library.
func New() (*Machine, error) {
	if err := load(); err != nil {
		return nil, err
	}
	m := &Machine{calls: make(chan func(*C.llb))}
	go func() {
		runtime.LockOSThread()
		var it C.llb
		for call := range m.calls {
			call(&it)
		}
	}()
	return m, nil
}

// Close frees the local trees and the session, and ends the machine. A second Close does nothing; no other call
// may follow.
func (m *Machine) Close() {
	m.end.Do(func() {
		m.do(func(it *C.llb) C.uint8_t { C.llb_close(it); return 0 })
		close(m.calls)
	})
}

// AddLocal adds a local tree, by its text; of two under one name, the later holds.
func (m *Machine) AddLocal(name, tree string) error {
	_, _, err := m.do(func(it *C.llb) C.uint8_t {
		n, t := []byte(name), []byte(tree)
		return C.llb_local(it, first(n), size(n), first(t), size(t))
	})
	return err
}

// Run returns the text of the result of a definition, run by one worker on the local trees.
func (m *Machine) Run(definition []byte) (string, error) {
	_, output, err := m.do(func(it *C.llb) C.uint8_t { return C.llb_run(it, first(definition), size(definition)) })
	return string(output), err
}

// Show returns the text of the graph of a definition.
func (m *Machine) Show(definition []byte) (string, error) {
	_, output, err := m.do(func(it *C.llb) C.uint8_t { return C.llb_show(it, first(definition), size(definition)) })
	return string(output), err
}

// Findings returns the line of each fault of a definition, in the order in which the program looks for them.
func (m *Machine) Findings(definition []byte) ([]string, error) {
	status, output, err := m.do(func(it *C.llb) C.uint8_t { return C.llb_findings(it, first(definition), size(definition)) })
	if status == 2 {
		return strings.Split(strings.TrimSuffix(string(output), "\n"), "\n"), nil
	}
	return nil, err
}

// Plan returns a line for each vertex of a definition: whether what it reads goes by value.
func (m *Machine) Plan(definition []byte) (string, error) {
	_, output, err := m.do(func(it *C.llb) C.uint8_t { return C.llb_plan(it, first(definition), size(definition)) })
	return string(output), err
}

// Matches returns a line for each vertex of a definition: which vertex of an older definition it matches.
func (m *Machine) Matches(old, definition []byte) (string, error) {
	_, output, err := m.do(func(it *C.llb) C.uint8_t {
		return C.llb_matches(it, first(old), size(old), first(definition), size(definition))
	})
	return string(output), err
}

// Script returns the line of the fault of a text as a script, without its end; an empty text if it is one.
func (m *Machine) Script(text string) (string, error) {
	t := []byte(text)
	status, output, err := m.do(func(it *C.llb) C.uint8_t { return C.llb_script(it, first(t), size(t)) })
	if status == 2 && len(output) > 0 {
		return strings.TrimSuffix(string(output), "\n"), nil
	}
	return "", err
}

// Assemble returns the definition of a text.
func (m *Machine) Assemble(text string) ([]byte, error) {
	t := []byte(text)
	_, output, err := m.do(func(it *C.llb) C.uint8_t { return C.llb_asm(it, first(t), size(t)) })
	return output, err
}

// Disassemble returns the text of the entries of a definition.
func (m *Machine) Disassemble(definition []byte) (string, error) {
	_, output, err := m.do(func(it *C.llb) C.uint8_t { return C.llb_dis(it, first(definition), size(definition)) })
	return string(output), err
}

// Ops returns the ops of the entries of a definition: each that can be read, in the words of Disassemble, whatever its encoding is.
func (m *Machine) Ops(definition []byte) (string, error) {
	_, output, err := m.do(func(it *C.llb) C.uint8_t { return C.llb_ops(it, first(definition), size(definition)) })
	return string(output), err
}

// Open opens a session on a definition and the local trees, in the place of the one that was open.
func (m *Machine) Open(definition []byte, workers int) error {
	// A number that does not fit is handed in as the largest that does, and is refused like it.
	number := C.uint32_t(math.MaxUint32)
	if workers >= 0 && uint64(workers) < math.MaxUint32 {
		number = C.uint32_t(workers)
	}
	_, _, err := m.do(func(it *C.llb) C.uint8_t {
		return C.llb_open(it, first(definition), size(definition), number)
	})
	return err
}

// Line returns the reply to a line of the session, and whether the session goes on.
func (m *Machine) Line(line string) (string, bool, error) {
	words := []byte(line)
	status, output, err := m.do(func(it *C.llb) C.uint8_t { return C.llb_line(it, first(words), size(words)) })
	if status == 1 {
		return "", false, nil
	}
	return string(output), true, err
}

// do makes a call on the machine's thread, and returns its status and its output.
func (m *Machine) do(call func(*C.llb) C.uint8_t) (status int, output []byte, err error) {
	done := make(chan struct{})
	m.calls <- func(it *C.llb) {
		defer close(done)
		status = int(call(it))
		output = make([]byte, int(C.llb_output(it, first(nil), 0)))
		C.llb_output(it, first(output), size(output))
		if status != 0 {
			messages := make([]byte, int(C.llb_messages(it, first(nil), 0)))
			C.llb_messages(it, first(messages), size(messages))
			err = FaultOf(status, string(messages))
		}
	}
	<-done
	return
}

var none [1]byte

// first returns a pointer to the first byte, and to some byte where there is none: the library takes no null pointer.
func first(bytes []byte) *C.uint8_t {
	if len(bytes) == 0 {
		bytes = none[:]
	}
	return (*C.uint8_t)(&bytes[0])
}

func size(bytes []byte) C.size_t {
	return C.size_t(len(bytes))
}
