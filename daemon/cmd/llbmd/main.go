// llbmd speaks BuildKit's API on a unix socket, and builds with llbm.
package main

import (
	"context"
	"errors"
	"flag"
	"fmt"
	"log"
	"os"
	"os/signal"
	"runtime"
	"syscall"

	"llbm/daemon/internal/control"
	"llbm/daemon/internal/kept"
	"llbm/daemon/internal/notes"
	"llbm/daemon/internal/server"
)

// badOptions is the exit status if the command line is refused.
const badOptions = 2

func main() {
	log.SetFlags(0)
	o, err := parse(os.Args[1:], os.Stderr)
	if errors.Is(err, flag.ErrHelp) {
		return
	}
	if err != nil {
		log.Printf("llbmd: %v", err)
		os.Exit(badOptions)
	}
	if o.version {
		fmt.Println(versions())
		return
	}
	if err := run(o); err != nil {
		log.Fatalf("llbmd: %v", err)
	}
}

// versions are those of the daemon, as clients are told it, and of Go.
func versions() string {
	return fmt.Sprintf("%s %s, built with %s", control.Version.Package, control.Version.Version, runtime.Version())
}

// noted reads the table of fields without an effect: that in a file, or the one that is built in.
func noted(path string) (*notes.Table, error) {
	if path != "" {
		return notes.Read(path)
	}
	return notes.BuiltIn()
}

func run(o *options) (err error) {
	syscall.Umask(0o077)
	if o.Notes, err = noted(o.notes); err != nil {
		return err
	}
	if o.keep != "" {
		if o.Kept, err = kept.Open(o.keep, o.keepBuilds, o.keepBytes); err != nil {
			return err
		}
	}
	ctx, stop := signal.NotifyContext(context.Background(), os.Interrupt, syscall.SIGTERM)
	defer stop()
	daemon, err := server.New(ctx, o.Options)
	if err != nil {
		return err
	}
	return daemon.Serve(ctx, o.address)
}
