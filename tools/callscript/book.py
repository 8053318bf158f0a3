"""The state of a target after each call, from the calls and the answers alone (document 01: the book).

It is a help for the eye, written from document 01 and not proved. It goes by the answers that it is told. Beside that
it says which answer it would have expected, and that is noted where another one stands.
"""
import dataclasses

from .calls import ANY, MODES, NO_COUNTER, OPTIONS
from .printout import EVENT_NUMBERS

BIT = {name: 1 << bit for bit, name in enumerate(OPTIONS)}
PORTALS, SLOTS, HEADERS, EVENTS, COUNTERS = 8, 64, 32, 64, 16
WRAP = 2**64
PRIORITY, OVERFLOW = 0, 1
# The answers that count in a register, in the registers' order.
DENIALS = ("DROPPED", "PERM", "OP")
HANDLE_MOST = 2**32 - 1


@dataclasses.dataclass(eq=False)
class Entry:
    """An entry that holds a slot: linked, or retired while messages wait in it."""

    values: dict
    handle: int
    local: int = 0
    retired: bool = False

    def __getitem__(self, name):
        return self.values[name]


@dataclasses.dataclass(eq=False)
class Header:
    """A waiting header: an early message, with the fields of its events, and the entry that holds its bytes."""

    kind: str
    portal: int
    event: dict
    entry: Entry


def has(values, option):
    return values["options"] & BIT[option] != 0


# ---- The rules for one entry and one request


def offset_in(entry, local, offset):
    """Rule 1: the offset of a request in an entry."""
    return local if has(entry, "MANAGE_LOCAL") else offset


def available(entry, offset):
    """Rule 1: the bytes from an offset to the entry's end."""
    return max(entry["length"] - offset, 0)


def matches(entry, local, event):
    """Rule 2: whether an entry matches a request, given by the fields of its events."""
    bits = (entry["match"] ^ event["match"]) & ~entry["ignore"]
    ids = all(entry[name] in (event[name], ANY) for name in ("nid", "pid"))
    room = available(entry, offset_in(entry, local, event["offset"]))
    return bits == 0 and ids and (not has(entry, "NO_TRUNCATE") or event["requested"] <= room)


def denial(entry, kind, event):
    """Rule 4: PERM or OP, or nothing where the entry allows the request."""
    if entry["uid"] not in (event["uid"], ANY):
        return "PERM"
    return "" if has(entry, "OP_PUT" if kind == "PUT" else "OP_GET") else "OP"


def fits(entry, header):
    """Early messages: whether a waiting header fits an entry that is appended or searched for."""
    mine = entry["portal"] == header.portal
    return mine and matches(entry, 0, header.event) and not denial(entry, header.kind, header.event)


def event_of(kind, fail="OK", **numbers):
    return {"kind": kind, "fail": fail, **{name: numbers.get(name, 0) for name in EVENT_NUMBERS}}


class Book:
    """What a target holds. `expected` says the answer to a call, `hear` changes the book by a call and its answer."""

    def __init__(self, memory):
        self.memory = bytearray(memory)
        self.last = 0
        self.entries = []
        self.waiting = []
        self.queue = []
        self.lost = False
        self.counters = [(0, 0)] * COUNTERS
        self.registers = dict.fromkeys(DENIALS, 0)

    def expected(self, call):
        """The answer to a call by document 01, as the line has it behind the number."""
        return getattr(self, "expected_" + call.kind.name)(call)

    def hear(self, call, answer):
        """Changes the book by a call and its answer. Refusals change nothing, and so does a text that is no answer."""
        if answer.word not in ("", "REFUSED"):
            getattr(self, "hear_" + call.kind.name)(call, answer)

    # ---- Events and counters

    def post(self, options, event):
        """Queues an event, unless the options of the entry whose user it carries disable it."""
        kind, fine = event["kind"], event["fail"] == "OK"
        disabled = {
            "LINK": ("EVENT_LINK_DISABLE",),
            "AUTO_UNLINK": ("EVENT_UNLINK_DISABLE",),
            "AUTO_FREE": ("EVENT_UNLINK_DISABLE",),
            "PUT_OVERFLOW": ("EVENT_SUCCESS_DISABLE", "EVENT_OVER_DISABLE"),
            "GET_OVERFLOW": ("EVENT_SUCCESS_DISABLE", "EVENT_OVER_DISABLE"),
        }.get(kind, ("EVENT_COMM_DISABLE", "EVENT_SUCCESS_DISABLE") if fine else ("EVENT_COMM_DISABLE",))
        if any(options & BIT[name] for name in disabled):
            return
        if len(self.queue) >= EVENTS:
            self.lost = True
            return
        self.queue.append({**event, "gap": int(self.lost)})
        self.lost = False

    def count(self, entry, option, messages, length):
        """Counts accepted requests (CT_COMM) or headers taken (CT_OVERFLOW) on an entry's counter."""
        if has(entry, option) and entry["counter"] < COUNTERS:
            success, failure = self.counters[entry["counter"]]
            success += length if has(entry, "CT_BYTES") else messages
            self.counters[entry["counter"]] = (success % WRAP, failure)

    # ---- Entries and searches

    def good_entry(self, entry, third):
        return (
            entry["portal"] < PORTALS
            and entry[third] <= 1
            and (entry["counter"] < COUNTERS or entry["counter"] == NO_COUNTER)
            and entry["options"] < 1 << len(OPTIONS)
            and entry["start"] + entry["length"] <= len(self.memory)
        )

    def walk(self, entry):
        """The waiting headers that fit an entry, oldest first; under USE_ONCE the first alone."""
        found = [header for header in self.waiting if fits(entry, header)]
        return found[:1] if has(entry, "USE_ONCE") else found

    def hand_out(self, entry, found):
        """Takes headers: an overflow event for each, and AUTO_FREE behind the last of a retired entry."""
        for header in found:
            self.waiting.remove(header)
            self.post(entry["options"], {**header.event, "kind": header.kind + "_OVERFLOW", "user": entry["user"]})
            old = header.entry
            if old.retired and all(other.entry is not old for other in self.waiting):
                self.entries.remove(old)
                free = event_of("AUTO_FREE", portal=old["portal"], list=OVERFLOW, user=old["user"])
                self.post(old["options"], free)

    def expected_append(self, call):
        if not self.good_entry(call, "list"):
            return "REFUSED ARG_INVALID"
        if len(self.entries) >= SLOTS or self.last >= HANDLE_MOST:
            return "REFUSED NO_SPACE"
        taken = call["list"] == PRIORITY and has(call, "USE_ONCE") and self.walk(call)
        return "TAKEN" if taken else f"LINKED {self.last + 1}"

    def hear_append(self, call, answer):
        found = self.walk(call) if call["list"] == PRIORITY else []
        self.hand_out(call, found)
        self.count(call, "CT_OVERFLOW", len(found), sum(header.event["accepted"] for header in found))
        if answer.word == "LINKED":
            self.last = answer.values["handle"]
            self.entries.append(Entry(call.values, self.last))
            link = event_of("LINK", portal=call["portal"], list=call["list"], user=call["user"])
            self.post(call["options"], link)

    def linked(self, handle):
        return next((entry for entry in self.entries if entry.handle == handle and not entry.retired), None)

    def expected_unlink(self, call):
        entry = self.linked(call["handle"])
        if entry is None:
            return "REFUSED ARG_INVALID"
        return "REFUSED IN_USE" if any(header.entry is entry for header in self.waiting) else "DONE"

    def hear_unlink(self, call, _answer):
        entry = self.linked(call["handle"])
        if entry is not None:
            self.entries.remove(entry)

    def expected_search(self, call):
        return f"SEARCHED {len(self.walk(call))}" if self.good_entry(call, "mode") else "REFUSED ARG_INVALID"

    def hear_search(self, call, _answer):
        found = self.walk(call)
        if call["mode"] == MODES.index("delete"):
            self.hand_out(call, found)
        else:
            for header in found:
                self.post(call["options"], {**header.event, "kind": "SEARCH", "user": call["user"]})
        if not (has(call, "USE_ONCE") and found):
            self.post(call["options"], event_of("SEARCH", "NO_MATCH", portal=call["portal"], user=call["user"]))

    # ---- Requests

    def request(self, call):
        """The kind of a request, and the fields of its events as far as the request gives them."""
        kind = call.kind.name.upper()
        requested = len(call["payload"]) if kind == "PUT" else call["length"]
        names = ("portal", "nid", "pid", "uid", "match", "offset")
        given = {name: call[name] for name in names}
        return kind, event_of(kind, requested=requested, data=call.values.get("data", 0), **given)

    def chosen(self, event):
        """Rule 3: the first matching entry of the priority list, else of the overflow list."""
        for number in (PRIORITY, OVERFLOW):
            for entry in self.entries:
                mine = not entry.retired and entry["list"] == number and entry["portal"] == event["portal"]
                if mine and matches(entry, entry.local, event):
                    return entry
        return None

    def placed(self, entry, event):
        """Rules 1 and 5: the offset of a request in an entry, the accepted length, and the place in memory."""
        offset = offset_in(entry, entry.local, event["offset"])
        accepted = min(event["requested"], available(entry, offset))
        return offset, accepted, entry["start"] + min(offset, entry["length"])

    def leaves_header(self, entry):
        return entry["list"] == OVERFLOW and not has(entry, "UNEXPECTED_HDR_DISABLE")

    def expected_request(self, call):
        ack = call.values.get("ack", 0)
        if ANY in (call["nid"], call["pid"], call["uid"]) or ack > 3:
            return "REFUSED ARG_INVALID"
        kind, event = self.request(call)
        entry = self.chosen(event)
        word = "DROPPED" if entry is None else denial(entry, kind, event)
        if not word and self.leaves_header(entry) and len(self.waiting) >= HEADERS:
            word = "DROPPED"
        if word:
            return f"{word} {ack}"
        offset, accepted, place = self.placed(entry, event)
        word = "PRIORITY" if entry["list"] == PRIORITY else "OVERFLOW"
        answer = f"{word} {accepted} {offset} {0 if has(entry, 'ACK_DISABLE') else ack}"
        if kind == "PUT":
            return answer
        return f"{answer} {self.memory[place : place + accepted].hex() or '-'}"

    def hear_request(self, call, answer):
        if answer.word in self.registers:
            self.registers[answer.word] = (self.registers[answer.word] + 1) % WRAP
            return
        kind, event = self.request(call)
        entry = self.chosen(event)
        if entry is not None:
            self.deliver(entry, kind, event, call.values.get("payload", b""))

    def deliver(self, entry, kind, event, payload):
        """Rules 5 to 7."""
        _offset, accepted, place = self.placed(entry, event)
        if kind == "PUT" and place + accepted <= len(self.memory):
            self.memory[place : place + accepted] = payload[:accepted]
        event = {**event, "accepted": accepted, "place": place}
        if has(entry, "MANAGE_LOCAL"):
            entry.local += accepted
        # In a later append's or search's events the list is 0, and the user theirs.
        if self.leaves_header(entry):
            self.waiting.append(Header(kind, entry["portal"], event, entry))
        self.count(entry, "CT_COMM", 1, accepted)
        self.post(entry["options"], {**event, "list": entry["list"], "user": entry["user"]})
        full = has(entry, "MANAGE_LOCAL") and entry["length"] - entry.local < entry["min_free"]
        if has(entry, "USE_ONCE") or full:
            entry.retired = any(header.entry is entry for header in self.waiting)
            if not entry.retired:
                self.entries.remove(entry)
            auto = event_of("AUTO_UNLINK", portal=entry["portal"], list=entry["list"], user=entry["user"])
            self.post(entry["options"], auto)

    expected_put = expected_get = expected_request
    hear_put = hear_get = hear_request

    # ---- The event queue, counters and registers

    def expected_read_event(self, _call):
        if not self.queue:
            return "NONE"
        event = self.queue[0]
        numbers = " ".join(str(event[name]) for name in EVENT_NUMBERS)
        return f"EVENT {event['kind']} {event['fail']} {numbers}"

    def hear_read_event(self, _call, answer):
        if answer.word == "EVENT" and self.queue:
            del self.queue[0]

    def expected_read_counter(self, call):
        if call["counter"] >= COUNTERS:
            return "REFUSED ARG_INVALID"
        return "COUNTER {} {}".format(*self.counters[call["counter"]])

    def hear_read_counter(self, call, answer):
        pass

    def expected_set_counter(self, call):
        return "DONE" if call["counter"] < COUNTERS else "REFUSED ARG_INVALID"

    def hear_set_counter(self, call, _answer):
        if call["counter"] < COUNTERS:
            self.counters[call["counter"]] = (call["success"], call["failure"])

    expected_increment = expected_set_counter

    def hear_increment(self, call, _answer):
        if call["counter"] < COUNTERS:
            success, failure = self.counters[call["counter"]]
            self.counters[call["counter"]] = ((success + call["success"]) % WRAP, (failure + call["failure"]) % WRAP)

    def expected_read_register(self, call):
        if call["register"] >= len(DENIALS):
            return "REFUSED ARG_INVALID"
        return f"REGISTER {self.registers[DENIALS[call['register']]]}"

    def hear_read_register(self, call, answer):
        pass
