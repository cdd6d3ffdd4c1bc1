// Command applets runs a script of llbm on the files of a container, as a shell with a few commands would: by calls of the kernel, which
// follows symbolic links. Beside BuildKit's own daemon it stands in for the processes of executions.
//
// Its words are those of an execution. With -skip before them, what has another command does nothing.
package main

import (
	"crypto/sha256"
	"errors"
	"fmt"
	"os"
	"path/filepath"
	"strconv"
	"strings"
	"syscall"
)

const (
	newFile      = 0o644
	newDirectory = 0o755
	usage        = 2
)

var (
	errFalse = errors.New("it always fails")
	errUsage = errors.New("it takes other words")
)

func main() {
	syscall.Umask(0o22)
	words, isSkipped := os.Args[1:], false
	if len(words) > 0 && words[0] == "-skip" {
		words, isSkipped = words[1:], true
	}
	calls, between := split(words)
	for _, call := range calls {
		if len(call) == 0 || commands[call[0]] == nil {
			if isSkipped {
				return
			}
			fmt.Fprintln(os.Stderr, "no script:", strings.Join(words, " "))
			os.Exit(usage)
		}
	}
	os.Exit(run(calls, between))
}

// split returns the calls of a script, and the separators between them.
func split(words []string) (calls [][]string, between []string) {
	if len(words) != 3 || words[0] != "/bin/sh" || words[1] != "-c" {
		return [][]string{words}, nil
	}
	calls = [][]string{nil}
	for _, word := range strings.Fields(words[2]) {
		switch word {
		case ";", "&&", "||":
			calls, between = append(calls, nil), append(between, word)
		default:
			last := len(calls) - 1
			calls[last] = append(calls[last], word)
		}
	}
	return calls, between
}

// run does the calls, and returns the status of the last one that was done.
func run(calls [][]string, between []string) int {
	status := 0
	for number, call := range calls {
		if number > 0 && (between[number-1] == "&&" && status != 0 || between[number-1] == "||" && status == 0) {
			continue
		}
		status = 0
		if err := commands[call[0]](call[1:]); err != nil {
			fmt.Fprintln(os.Stderr, call[0]+":", err)
			status = 1
		}
	}
	return status
}

var commands map[string]func([]string) error

func init() {
	commands = map[string]func([]string) error{
		"true": func([]string) error { return nil }, "false": func([]string) error { return errFalse },
		"mkdir": mkdir, "rm": taking(1, rm), "write": taking(2, write), "append": taking(2, add), "cp": taking(2, cp), "concat": concat,
		"chmod": taking(2, chmod), "test": taking(2, test), "listing": taking(2, listing), "envfile": taking(1, envfile), "sha256": taking(2, sum),
	}
}

// taking returns a command that takes a number of words.
func taking(count int, do func([]string) error) func([]string) error {
	return func(words []string) error {
		if len(words) != count {
			return errUsage
		}
		return do(words)
	}
}

func mkdir(words []string) error {
	if len(words) == 2 && words[0] == "-p" {
		return os.MkdirAll(words[1], newDirectory)
	}
	return taking(1, func(words []string) error { return os.Mkdir(words[0], newDirectory) })(words)
}

func rm(words []string) error {
	if _, err := os.Lstat(words[0]); err != nil {
		return err
	}
	return os.RemoveAll(words[0])
}

func write(words []string) error { return os.WriteFile(words[0], []byte(words[1]+"\n"), newFile) }

func add(words []string) error {
	to, err := os.OpenFile(words[0], os.O_APPEND|os.O_CREATE|os.O_WRONLY, newFile)
	if err != nil {
		return err
	}
	_, err = to.WriteString(words[1] + "\n")
	return errors.Join(err, to.Close())
}

// cp copies a file with its mode and its owner.
func cp(words []string) error {
	from, to := words[0], words[1]
	data, err := os.ReadFile(from)
	if err != nil {
		return err
	}
	info, err := os.Stat(from)
	if err != nil {
		return err
	}
	if into, err := os.Stat(to); err == nil && into.IsDir() {
		to = filepath.Join(to, filepath.Base(from))
	}
	if err := os.WriteFile(to, data, newFile); err != nil {
		return err
	}
	owner := info.Sys().(*syscall.Stat_t)
	return errors.Join(os.Chown(to, int(owner.Uid), int(owner.Gid)), syscall.Chmod(to, owner.Mode&0o7777))
}

func concat(words []string) error {
	if len(words) < 2 {
		return errUsage
	}
	var all []byte
	for _, from := range words[1:] {
		data, err := os.ReadFile(from)
		if err != nil {
			return err
		}
		all = append(all, data...)
	}
	return os.WriteFile(words[0], all, newFile)
}

func chmod(words []string) error {
	mode, err := strconv.ParseUint(words[0], 8, 12)
	if err != nil {
		return errUsage
	}
	return syscall.Chmod(words[1], uint32(mode))
}

func test(words []string) error {
	info, err := os.Stat(words[1])
	switch {
	case err != nil:
		return err
	case words[0] == "-f" && !info.Mode().IsRegular() || words[0] == "-d" && !info.IsDir():
		return errFalse
	}
	return nil
}

func listing(words []string) error {
	entries, err := os.ReadDir(words[0])
	if err != nil {
		return err
	}
	var lines strings.Builder
	for _, one := range entries {
		end := "\n"
		if one.IsDir() {
			end = "/\n"
		}
		lines.WriteString(one.Name() + end)
	}
	return os.WriteFile(words[1], []byte(lines.String()), newFile)
}

func envfile(words []string) error {
	return os.WriteFile(words[0], []byte(strings.Join(append(os.Environ(), ""), "\n")), newFile)
}

func sum(words []string) error {
	data, err := os.ReadFile(words[0])
	if err != nil {
		return err
	}
	return os.WriteFile(words[1], []byte(fmt.Sprintf("%x\n", sha256.Sum256(data))), newFile)
}
