"""The lines of a printout (document 01, "Script and printout"): read, and said with the names of their fields."""
import dataclasses
import re

from .calls import ACKS, LISTS
from .text import visible, write_bits

# The numbers behind each word, by name.
ANSWERS = {
    "LINKED": ("handle",),
    "TAKEN": (),
    "DONE": (),
    "SEARCHED": ("found",),
    "COUNTER": ("success", "failure"),
    "REGISTER": ("value",),
    "PRIORITY": ("accepted", "offset", "ack"),
    "OVERFLOW": ("accepted", "offset", "ack"),
    "DROPPED": ("ack",),
    "PERM": ("ack",),
    "OP": ("ack",),
    "NONE": (),
}
REFUSALS = ("BAD_STATE", "BAD_MEMORY", "ARG_INVALID", "NO_SPACE", "IN_USE")
EVENT_KINDS = ("LINK", "PUT", "GET", "PUT_OVERFLOW", "GET_OVERFLOW", "SEARCH", "AUTO_UNLINK", "AUTO_FREE")
FAIL_TYPES = ("OK", "NO_MATCH")
# The numbers of an event, behind its kind and fail type. `data` is the header data, `user` the user number.
EVENT_NUMBERS = (
    "portal", "list", "nid", "pid", "uid", "match", "requested", "accepted", "offset", "place", "data", "user", "gap",
)  # fmt: skip
# Those that an event of these kinds carries; in others they are 0.
BARE_EVENT = ("portal", "list", "user", "gap")
# The answers that each call can have, beside REFUSED.
ANSWERS_OF = {
    "append": ("LINKED", "TAKEN"),
    "unlink": ("DONE",),
    "put": ("PRIORITY", "OVERFLOW", "DROPPED", "PERM", "OP"),
    "get": ("PRIORITY", "OVERFLOW", "DROPPED", "PERM", "OP"),
    "read_event": ("EVENT", "NONE"),
    "read_counter": ("COUNTER",),
    "set_counter": ("DONE",),
    "increment": ("DONE",),
    "search": ("SEARCHED",),
    "read_register": ("REGISTER",),
}
DECIMAL = re.compile(r"0|[1-9][0-9]{0,19}")
BYTES = re.compile(r"-|(?:[0-9a-f]{2})+")


@dataclasses.dataclass(frozen=True)
class Answer:
    """What a line says of a call. `word` is its first word, or "" where the text is no answer of that call; `values`
    are its numbers by name, of an event its kind and fail type too, of a get the accepted bytes as `bytes`."""

    text: str
    word: str = ""
    values: dict = dataclasses.field(default_factory=dict)


def read_answer(kind, text):
    """The answer that a text gives to a call of this kind."""
    word, *rest = text.split(" ")
    values = read_values(kind, word, rest)
    return Answer(text) if values is None else Answer(text, word, values)


def read_values(kind, word, rest):
    """What stands behind the word of an answer, by name; none where it is no answer to a call of this kind."""
    if word == "REFUSED":
        return {"refusal": rest[0]} if len(rest) == 1 and rest[0] in REFUSALS else None
    if word not in ANSWERS_OF[kind]:
        return None
    if word == "EVENT":
        named = len(rest) > 2 and rest[0] in EVENT_KINDS and rest[1] in FAIL_TYPES
        numbers = read_numbers(EVENT_NUMBERS, rest[2:]) if named else None
        return numbers and {"kind": rest[0], "fail": rest[1], **numbers}
    if kind == "get" and word in ("PRIORITY", "OVERFLOW"):
        numbers = read_numbers(ANSWERS[word], rest[:-1])
        return {**numbers, "bytes": rest[-1]} if numbers and BYTES.fullmatch(rest[-1]) else None
    return read_numbers(ANSWERS[word], rest)


def read_numbers(names, words):
    """The numbers by name; none where there are others, or words that are no decimal numbers."""
    if len(names) != len(words) or not all(DECIMAL.fullmatch(word) and int(word) < 2**64 for word in words):
        return None
    return dict(zip(names, map(int, words)))


@dataclasses.dataclass
class Printout:
    """The answers to the calls of a script, by number. `verdict` is what stands behind BAD_SCRIPT, and `stray` are the
    lines that answer no call, with their numbers from 1."""

    answers: dict
    stray: list
    verdict: str = ""


def read(source, script):
    """The printout in a text. Every text is one: a line that answers no call in its turn is a stray one, unless it is
    empty."""
    printout = Printout({}, [])
    lines = source.removeprefix("\ufeff").removesuffix("\n").split("\n") if source else []
    last = -1
    for at, line in enumerate(lines, 1):
        line = line.removesuffix("\r")
        first, blank, rest = line.partition(" ")
        number = int(first) if DECIMAL.fullmatch(first) else -1
        if first == "BAD_SCRIPT" and len(lines) == 1:
            printout.verdict = rest
        elif last < number < len(script.calls) and blank:
            printout.answers[number] = read_answer(script.calls[number].kind.name, rest)
            last = number
        elif line.strip():
            printout.stray.append((at, line))
    return printout


# ---- With the names of the fields


def say(answer):
    """The answer with the names of its fields; a text that is no answer as it is, in quotes."""
    if not answer.word:
        return f'"{visible(answer.text)}"'
    if answer.word == "EVENT":
        return "EVENT " + say_event(answer.values)
    return " ".join([answer.word] + [say_value(name, value) for name, value in answer.values.items()])


def say_value(name, value):
    if name == "refusal":
        return value
    if name == "ack" and value < len(ACKS):
        return f"ack={ACKS[value]}"
    if name == "list" and value < len(LISTS):
        return f"list={LISTS[value]}"
    return f"{name}={write_bits(value) if name == 'match' else value}"


def say_event(event):
    """An event with the names of its fields. Of one that carries no message, the fields that are 0 are left out."""
    names = EVENT_NUMBERS
    bare = event["kind"] in ("LINK", "AUTO_UNLINK", "AUTO_FREE") or event["fail"] == "NO_MATCH"
    if bare:
        names = [name for name in EVENT_NUMBERS if name in BARE_EVENT or event[name] != 0]
    words = [say_value(name, event[name]) for name in names if name != "gap" or event[name] != 0]
    if event["kind"] == "SEARCH":
        # The list of a search's event is always 0, and no list.
        words = [word.replace("list=priority", "list=0") for word in words]
    return " ".join([event["kind"], event["fail"], *words])
