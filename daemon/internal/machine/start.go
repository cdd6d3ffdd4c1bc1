package machine

import (
	"os/exec"
	"runtime"
	"sync"

	"golang.org/x/sys/unix"
)

// Children die with the thread that starts them (Pdeathsig), so one thread, which lasts as long as the process, starts all.
// It has given up new privileges, and so have they: no program of theirs gets rights by a set-uid bit.
var starter struct {
	once   sync.Once
	starts chan func()
}

// Start starts a command that is to end with this process, whatever ends it.
func Start(cmd *exec.Cmd) error {
	starter.once.Do(func() {
		starter.starts = make(chan func())
		go func() {
			runtime.LockOSThread()
			_ = unix.Prctl(unix.PR_SET_NO_NEW_PRIVS, 1, 0, 0, 0)
			for start := range starter.starts {
				start()
			}
		}()
	})
	started := make(chan error)
	starter.starts <- func() { started <- cmd.Start() }
	return <-started
}
