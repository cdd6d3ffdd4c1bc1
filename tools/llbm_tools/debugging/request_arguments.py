"""The arguments of a request by name and type. If one is missing or has another type the request is refused."""

from typing import TypeVar, overload

from llbm_tools.streams import Refused

# An object of the protocol: a message, the arguments of a request, or the body of a response.
Object = dict[str, object]

Kind = TypeVar("Kind")
Default = TypeVar("Default")

KINDS: dict[type, str] = {
    int: "a whole number", str: "a text", bool: "true or false", list: "a list", dict: "an object",
}
REQUIRED = object()


@overload
def argument(arguments: Object, name: str, kind: type[Kind]) -> Kind: ...


@overload
def argument(arguments: Object, name: str, kind: type[Kind], default: Default) -> Kind | Default: ...


def argument(arguments: Object, name: str, kind: type, default: object = REQUIRED) -> object:
    """Returns an argument by name and type, or the default if it is absent or null."""
    value = arguments.get(name)
    if value is None:
        if default is REQUIRED:
            raise Refused(f"{name} is missing")
        return default
    return of_kind(value, name, kind)


def of_kind(value: object, name: str, kind: type[Kind]) -> Kind:
    """Checks the type of a value and returns it; a boolean is not a number."""
    if not isinstance(value, kind) or kind is int and isinstance(value, bool):
        raise Refused(f"{name} is not {KINDS[kind]}")
    return value
