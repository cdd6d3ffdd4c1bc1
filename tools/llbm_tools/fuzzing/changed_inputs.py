"""Changes inputs of the program at random: bytes, lines, and the records of messages.

All randomness comes from the generator that is passed in, so equal seeds make equal changes.
"""

import random

from llbm_tools.fuzzing import made_inputs
from llbm_tools.fuzzing.made_inputs import one_in
from llbm_tools.llb import definition, messages
from llbm_tools.llb.messages import NUMBER, TABLE, TRUTH, Message, Raw, Value
from llbm_tools.llb.wire import Unreadable

NUMBERS = [
    0, 1, 2, 3, 4, 5, 7, 63, 64, 127, 128, 255, 256, 420, 493, 1023, 1024, 4095, 4096, 65535, 65536, -1, -2, -128,
    2**31 - 1, 2**31, -(2**31), 2**32 - 1, 2**32, 2**32 + 1, 2**53, 2**63 - 1, -(2**63),
]
LETTERS = b"\x00\x01\t\n\r\x1f \"#%*-./:?[\\]^{}\x7f\x80\xc0\xef\xff"
STRANGE_TEXTS = [
    b"\xff", b"\xc0\x80", b"\xed\xa0\x80", b"a\x00b", b"", b"sha256:", b"sha256:" + b"0" * 64, b"%0", b"\n",
]
STRANGE_RECORDS = [
    b"\x00", b"\x07", b"\x0b", b"\x0c", b"\x80", b"\xff" * 9 + b"\x01", b"\xff" * 9 + b"\x02", b"\x52\x02\x0a\x00",
    b"\x0a\x7f", b"\x09" + b"\x00" * 8, b"\x0d" + b"\x00" * 4, b"\x08\x80\x00", b"\x5a\x00", b"\x88\x00\x01",
    b"\xfa\xff\xff\xff\x0f\x00",
]
STRANGE_ENTRIES = [b"", b"\x0a\x00", b"\x32\x00", b"\x22\x00", b"\x12\x00", b"\x1a\x00", b"\xff"]
LINES = [
    b"", b"#", b" # x", b"op {", b"}", b"{", b"raw -", b"raw 0a00", b"raw 0", b"extra 5a00", b"extra -", b"nosuch 1",
    b"digest %0", b"digest %99", b"index -1", b"index 00", b"inputs {", b"file {", b"mode 4294967296",
    b"readonly true", b"\xff",
]
TREE_LINES = [
    b"d 0755 0 0 /", b"f 0644 0 0 - /a", b"d 0755 0 0 /a/b", b"f 0644 0 0 6 /z", b"d 0755 00 0 /z", b"d 755 0 0 /z",
    b"", b"f 0644 0 4294967296 - /z", b"d 0755 0 0 /z/", b"d 0755 0 0 z", b"f 0644 0 0 AB /z", b"d 0755 0 0 /\xff",
    b"f 0644 0 0  /z",
]
SESSION_LINES = [
    b"", b" go", b"go ", b"go  ", b"next next", b"claim 0", b"claim 0 0 0", b"claim -1 0", b"claim 4294967296 0",
    b"step", b"claim 00 00", b"break", b"break fail 1", b"break claim", b"break settle 4294967295", b"tree 0",
    b"tree 9 9", b"QUIT", b"quit", b"back 1", b"status 0", b"\xff", b"step \x00", b"claim 0\t0", b"go\r",
    b"tree 0 4294967295", b"cancel 63",
]
STRANGE_LINES = {"text": LINES, "tree": TREE_LINES, "commands": SESSION_LINES}


def piece(dice: random.Random, data: bytes) -> tuple[int, int]:
    """Returns a random position in bytes and one at or shortly after it."""
    start = dice.randrange(len(data) + 1)
    return start, min(len(data), start + dice.choice([1, 1, 2, 4, 8, 64]))


def changed_bytes(dice: random.Random, data: bytes) -> bytes:
    """Returns the bytes with one small change."""
    start, end = piece(dice, data)
    kind = dice.randrange(7)
    if kind == 0:
        return data[:start] + data[end:]
    if kind == 1:
        return data[:end] + data[start:]
    if kind == 2:
        return data[:start] + bytes([dice.choice(LETTERS)]) + data[start:]
    if kind == 3 and start < len(data):
        return data[:start] + bytes([data[start] ^ 1 << dice.randrange(8)]) + data[start + 1 :]
    if kind == 4:
        return data[:start] + dice.randbytes(dice.choice([1, 2, 4])) + data[end:]
    if kind == 5 and one_in(dice, 4):
        return data[:start]
    return data[:start] + bytes([dice.choice(LETTERS)]) + data[start + 1 :]


def changed_much(dice: random.Random, data: bytes) -> bytes:
    """Returns the bytes with a few small changes."""
    for _ in range(dice.choice([1, 1, 1, 2, 3, 6])):
        data = changed_bytes(dice, data)
    return data


def changed_lines(dice: random.Random, text: bytes, kind: str) -> bytes:
    """Returns a text with a few changed lines."""
    lines = text.split(b"\n")
    for _ in range(dice.choice([1, 1, 2, 4])):
        place = dice.randrange(len(lines))
        other = dice.randrange(len(lines))
        choice = dice.randrange(8)
        if choice == 0 and len(lines) > 1:
            lines.pop(place)
        elif choice == 1:
            lines.insert(other, lines[place])
        elif choice == 2:
            lines[place], lines[other] = lines[other], lines[place]
        elif choice == 3:
            lines.insert(place, dice.choice(STRANGE_LINES[kind]))
        elif choice == 4:
            lines[place] = dice.choice([b" ", b"\t", b"\r", b"  "]) + lines[place] + dice.choice([b"", b" ", b"\r"])
        elif choice == 5:
            words = lines[place].split(b" ")
            words[-1] = dice.choice([str(dice.choice(NUMBERS)).encode(), b'"a"', b"true", b"-", b"00", b"{"])
            lines[place] = b" ".join(words)
        else:
            lines[place] = changed_bytes(dice, lines[place])
    return b"\n".join(lines)


def changed_text(dice: random.Random, text: bytes, kind: str) -> bytes:
    """Returns a text with a few changes to its lines or its bytes."""
    return changed_lines(dice, text, kind) if one_in(dice, 2) else changed_much(dice, text)


def some_text(dice: random.Random) -> bytes:
    """Returns a random text for a field of a message."""
    maker = dice.choice([made_inputs.path, made_inputs.pattern, made_inputs.script, None])
    if maker is None:
        return dice.choice(STRANGE_TEXTS)
    return maker(dice).encode()


def some_value(dice: random.Random, kind: str, value: Value | None) -> Value:
    """Returns another value for a field of this kind."""
    if kind == TRUTH:
        return dice.choice([0, 1, 2])
    if kind == NUMBER:
        return dice.choice([*NUMBERS, value + 1, value - 1]) if isinstance(value, int) else dice.choice(NUMBERS)
    if isinstance(value, bytes) and not isinstance(value, Raw) and one_in(dice, 2):
        return changed_bytes(dice, value)
    return some_text(dice)


def some_message(dice: random.Random, name: str) -> Message:
    """Returns a random message of this type."""
    message: Message = []
    for number, (_, kind) in sorted(TABLE[name].items()):
        if one_in(dice, 2):
            message.append((number, some_message(dice, kind) if kind in TABLE else some_value(dice, kind, None)))
    return message


def messages_in(name: str, message: Message) -> list[tuple[str, Message]]:
    """Returns a message and all messages inside it, with their types."""
    found = [(name, message)]
    for field, value in message:
        kind = TABLE[name].get(field, ("", ""))[1]
        if isinstance(value, list) and kind in TABLE:
            found += messages_in(kind, value)
    return found


def change_message(dice: random.Random, name: str, message: Message) -> None:
    """Changes, removes or adds one record of a message, in place."""
    choice = dice.randrange(10) if message else 9
    place = dice.randrange(len(message)) if message else 0
    field, value = message[place] if message else (0, 0)
    kind = TABLE[name].get(field, ("", ""))[1]
    if choice == 0:
        message.pop(place)
    elif choice == 1:
        message.insert(dice.randint(0, len(message)), (field, value))
    elif choice == 2:
        other = dice.randrange(len(message))
        message[place], message[other] = message[other], message[place]
    elif choice == 3:
        message[place] = (dice.choice([*TABLE[name], 10, 11, 21, 536870911]), value)
    elif choice == 4 and one_in(dice, 2):
        message[place] = (field, dice.choice(NUMBERS) if isinstance(value, (bytes, list)) else some_text(dice))
    elif choice == 9:
        add_record(dice, name, message)
    elif kind not in TABLE:
        message[place] = (field, some_value(dice, kind, value))


def add_record(dice: random.Random, name: str, message: Message) -> None:
    """Adds a random record to a message."""
    place = dice.randint(0, len(message))
    if one_in(dice, 4):
        message.insert(place, (0, Raw(dice.choice(STRANGE_RECORDS))))
        return
    field, (_, kind) = dice.choice(sorted(TABLE[name].items()))
    message.insert(place, (field, some_message(dice, kind) if kind in TABLE else some_value(dice, kind, None)))


def changed_op(dice: random.Random, entry: bytes) -> bytes:
    """Returns an entry with a few changes to its messages, or to its bytes if it is not an op."""
    try:
        op = messages.parsed("Op", entry)
    except Unreadable:
        return changed_bytes(dice, entry)
    for _ in range(dice.choice([1, 1, 1, 2, 3])):
        change_message(dice, *dice.choice(messages_in("Op", op)))
    return messages.encoded(op)


def changed_entries(dice: random.Random, entries: list[bytes]) -> list[bytes]:
    """Returns entries of which one or two are changed; in most cases the inputs then name the changed ones."""
    after = list(entries)
    for _ in range(dice.choice([1, 1, 2])):
        place = dice.randrange(len(after))
        change = changed_bytes if one_in(dice, 8) else changed_op
        after[place] = change(dice, after[place])
    return after if one_in(dice, 8) else messages.with_new_digests(entries, after)


def moved_entries(dice: random.Random, entries: list[bytes]) -> list[bytes]:
    """Returns the entries in another order, or with one added or removed."""
    entries = list(entries)
    place, other = dice.randrange(len(entries)), dice.randrange(len(entries))
    kind = dice.randrange(4)
    if kind == 0 and len(entries) > 1:
        entries.pop(place)
    elif kind == 1:
        entries.insert(other, entries[place])
    elif kind == 2:
        entries.insert(other, dice.choice(STRANGE_ENTRIES))
    else:
        entries[place], entries[other] = entries[other], entries[place]
    return entries


def changed_definition(dice: random.Random, data: bytes) -> bytes:
    """Returns a definition with changes to its entries or, now and then, to its bytes."""
    try:
        entries = definition.entries_of(data)
    except Unreadable:
        return changed_bytes(dice, data)
    if not entries or one_in(dice, 8):
        return changed_much(dice, data)
    if one_in(dice, 5):
        entries = moved_entries(dice, entries)
    else:
        entries = changed_entries(dice, entries)
    tail = dice.choice([b"\x12\x00", b"\x1a\x02\x0a\x00", b"\x20\x01", b"\x10\x01"]) if one_in(dice, 25) else b""
    return messages.definition_of(entries) + tail
