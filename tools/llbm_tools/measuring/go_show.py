"""Builds the program in Go that `measure` runs beside `llbm show`: bindings/go/show/main.go.

In: that file, the table of `ops`, and of Debian `golang-go`, `protobuf-compiler`, `gogoprotobuf` and
`golang-github-gogo-protobuf-dev`. Out: the program, in a temporary folder, from which it runs; nothing else is written.

The program imports BuildKit's package `solver/pb`. What it gets is not that package: it is code that BuildKit's
generator (gogofaster, up to BuildKit 0.16) makes from the messages that this repository reads.
"""

import os
import pathlib
import shutil
import subprocess
from collections.abc import Iterator

from llbm_tools.llb.ops import MESSAGES, AttributeEntry, Definition, Field, Message, fields_of
from llbm_tools.paths import ROOT

MAIN = ROOT / "bindings" / "go" / "show" / "main.go"
IMPORTED = "github.com/moby/buildkit/solver/pb"
COMMANDS = ("go", "protoc", "protoc-gen-gogofaster")
INSTALLED = pathlib.Path("/usr/share/gocode")
GENERATED_ON = pathlib.Path("src/github.com/gogo/protobuf")

HEAD = """syntax = "proto3";
package pb;
import "github.com/gogo/protobuf/gogoproto/gogo.proto";
option (gogoproto.stable_marshaler_all) = true;
"""
# BuildKit's names of its oneofs; an enum is written as its number, which has the same bytes.
ONEOFS: dict[type[Message], str] = {MESSAGES["Op"]: "op", MESSAGES["FileAction"]: "action", MESSAGES["UserOpt"]: "user"}
KINDS = {"enum": "int32"}


class NotBuilt(Exception):
    """A command failed; the argument is a line that says which."""


def missing() -> list[str]:
    """Returns what is not there of what the program is built with."""
    names = [name for name in COMMANDS if not shutil.which(name)]
    return names if (INSTALLED / GENERATED_ON).is_dir() else [*names, str(INSTALLED / GENERATED_ON)]


def kind_text(field: Field) -> str:
    """Returns the type of a field in the language of protoc; the attributes of a source are a map."""
    if field.kind is AttributeEntry:
        return "map<string, string>"
    kind = KINDS.get(field.kind, field.kind) if isinstance(field.kind, str) else field.kind.__name__
    return f"repeated {kind}" if field.repeated else kind


def lines_of(message: type[Message]) -> Iterator[str]:
    """Yields the lines of a message in the language of protoc."""
    fields = fields_of(message).values()
    lines = {field: f"{kind_text(field)} {field.name} = {field.number};" for field in fields}
    yield f"message {message.__name__} {{"
    yield from (f"  {line}" for field, line in lines.items() if not field.member)
    if message in ONEOFS:
        yield f"  oneof {ONEOFS[message]} {{"
        yield from (f"    {line}" for field, line in lines.items() if field.member)
        yield "  }"
    yield "}"


def messages_text() -> str:
    """Returns all messages in the language of protoc."""
    messages: list[type[Message]] = [Definition, *MESSAGES.values()]
    messages.remove(AttributeEntry)
    return HEAD + "".join(f"{line}\n" for message in messages for line in lines_of(message))


def call(words: list[str], **given: str) -> None:
    """Runs a command that has to end with status 0."""
    status = subprocess.run(words, stdin=subprocess.DEVNULL, env={**os.environ, **given}).returncode
    if status:
        raise NotBuilt(f"ended with status {status}: {' '.join(words)}")


def built(folder: pathlib.Path) -> pathlib.Path:
    """Builds the program in a folder, in which the generated package is too, and returns its path."""
    generated = folder / "src" / IMPORTED
    generated.mkdir(parents=True)
    (folder / "ops.proto").write_text(messages_text(), "utf-8")
    places = [f"--proto_path={place}" for place in (folder, INSTALLED / "src")]
    call(["protoc", *places, f"--gogofaster_out={generated}", "ops.proto"])
    program = folder / "show"
    path, cache = f"{folder}:{INSTALLED}", str(folder / "cache")
    call(["go", "build", "-o", str(program), str(MAIN)], GO111MODULE="off", GOFLAGS="", GOPATH=path, GOCACHE=cache)
    return program
