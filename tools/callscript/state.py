"""What a book holds, as sections of rows for the eye."""
import dataclasses

from .book import EVENTS, HEADERS, SLOTS
from .calls import BY_NAME, LISTS
from .printout import say_event, say_value
from .text import write_options, write_value

# So many bytes of memory in a row, and so many rows at most.
ROW = 16
ROWS_MOST = 64


@dataclasses.dataclass(frozen=True)
class Row:
    """A thing that the target holds: what it is, and its fields as words."""

    label: str
    words: str


def sections(book, portals):
    """Titles with their rows: lists in link order, headers and events from the oldest on. Empty lists are left out."""
    # A portal with two names goes by the first.
    names = {number: f" ({name})" for name, number in reversed(portals.items())}
    found = []
    for portal, number in sorted({(entry["portal"], entry["list"]) for entry in book.entries if not entry.retired}):
        linked = [e for e in book.entries if (e["portal"], e["list"], e.retired) == (portal, number, False)]
        name = f"{LISTS[number]} list" if number < len(LISTS) else f"list {number}"
        found.append((f"portal {portal}{names.get(portal, '')}, {name}", list(map(entry_row, linked))))
    retired = [entry for entry in book.entries if entry.retired]
    if retired:
        found.append(("retired entries, in which messages wait", list(map(entry_row, retired))))
    waiting = [header_row(header, names) for header in book.waiting]
    found.append((f"waiting headers: {len(waiting)} of {HEADERS}", waiting))
    full = ", and an event was lost since" if book.lost else ""
    found.append((f"event queue: {len(book.queue)} of {EVENTS}{full}", list(map(event_row, book.queue))))
    counters = [
        Row(f"counter {number}", f"success={success} failure={failure}")
        for number, (success, failure) in enumerate(book.counters)
        if success or failure
    ]
    if counters:
        found.append(("counters that are not 0", counters))
    registers = " ".join(f"{name}={value}" for name, value in book.registers.items())
    slots = f"{len(book.entries)} of {SLOTS}"
    found.append(("registers and slots", [Row("registers", registers), Row("slots", slots)]))
    memory = memory_rows(book.memory)
    if memory:
        found.append(("memory, where it is not 0", memory))
    return found


def entry_row(entry):
    fields = {field.name: field for field in BY_NAME["append"].named}
    options = write_options(entry["options"])
    words = [f"user={entry['user']}", options, f"bytes={entry['start']}..{entry['start'] + entry['length']}"]
    if "MANAGE_LOCAL" in options:
        words.append(f"local={entry.local}")
    words.append(f"match={write_value(fields['match'], entry['match'])}")
    for name in ("ignore", "min_free", "uid", "nid", "pid", "counter"):
        if entry[name] != fields[name].default:
            words.append(f"{name}={write_value(fields[name], entry[name])}")
    return Row(f"entry {entry.handle}", " ".join(words))


def header_row(header, names):
    shown = ("nid", "pid", "uid", "match", "requested", "accepted", "offset", "place", "data")
    words = " ".join(say_value(name, header.event[name]) for name in shown)
    portal = f"portal={header.portal}{names.get(header.portal, '')}"
    return Row(f"{header.kind} in entry {header.entry.handle}", f"{portal} {words}")


def event_row(event):
    kind, words = say_event(event).split(" ", 1)
    return Row(kind, words)


def memory_rows(memory):
    """The rows of memory that are not all 0, as hex and as text."""
    places = [place for place in range(0, len(memory), ROW) if any(memory[place : place + ROW])]
    rows = []
    for place in places[:ROWS_MOST]:
        part = memory[place : place + ROW]
        text = "".join(chr(byte) if 32 <= byte <= 126 else "." for byte in part)
        rows.append(Row(str(place), f"{part.hex(' ')}  {text}"))
    if len(places) > ROWS_MOST:
        rows.append(Row("..", f"{len(places) - ROWS_MOST} rows more"))
    return rows
