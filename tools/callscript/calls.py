"""The calls of a script and their fields: names, widths, defaults, and the words for some of their numbers."""
import dataclasses

# Document 01, "Script and printout": the sizes of a script.
CALLS_MOST = 1024
FILE_MOST = 32768
MEMORY_MOST = 16384
GET_MOST = 16384

# The option bits from 0 on.
OPTIONS = (
    "OP_PUT", "OP_GET", "MANAGE_LOCAL", "NO_TRUNCATE", "USE_ONCE", "ACK_DISABLE", "UNEXPECTED_HDR_DISABLE",
    "EVENT_LINK_DISABLE", "EVENT_COMM_DISABLE", "EVENT_SUCCESS_DISABLE", "EVENT_OVER_DISABLE", "EVENT_UNLINK_DISABLE",
    "CT_COMM", "CT_OVERFLOW", "CT_BYTES",
)  # fmt: skip
ANY = 2**32 - 1
NO_COUNTER = 255
LISTS = ("priority", "overflow")
MODES = ("look", "delete")
ACKS = ("none", "full", "counting", "operation")
REGISTERS = ("drop", "permission", "operation")


@dataclasses.dataclass(frozen=True)
class Field:
    """A field of a call: its name, its bytes in the body, and how its numbers are written.

    `words` are names for some numbers; any other number can be written too. A field without a default must be given.
    `style` is "number"; "bits", written in hex; "options", names joined by "+"; "portal", which a script may name;
    "bytes", a put's payload. Two styles are no fields of the text: "zero", and "length", which is the payload's.
    """

    name: str
    size: int
    default: object = None
    words: dict = dataclasses.field(default_factory=dict)
    style: str = "number"
    most: int = -1

    @property
    def largest(self):
        return self.most if self.most >= 0 else 2 ** (8 * self.size) - 1


def numbered(names):
    return {name: number for number, name in enumerate(names)}


def zero(size, name="zero"):
    return Field(name, size, 0, style="zero")


@dataclasses.dataclass(frozen=True)
class Kind:
    """A kind of call: its number in the contents, its name, and the fields of its body in order."""

    number: int
    name: str
    fields: tuple
    meaning: str

    @property
    def size(self):
        """The bytes of the body, of a put those in front of its payload."""
        return sum(field.size for field in self.fields)

    @property
    def named(self):
        """The fields that the text form has, in order."""
        return [field for field in self.fields if field.style not in ("zero", "length")]


@dataclasses.dataclass(frozen=True)
class Call:
    """One call: the numbers of its named fields, and of a put the bytes of its payload."""

    kind: Kind
    values: dict

    def __getitem__(self, name):
        return self.values[name]

    @property
    def size(self):
        """The bytes of its body."""
        return self.kind.size + len(self.values.get("payload", b""))


@dataclasses.dataclass
class Script:
    """A script: the size of its memory and its calls.

    Of a script in text form also: the names that it gives to portals, the comment at its beginning, line by line, and
    the comments behind calls, by the call's number. None of these has a place in the binary form.
    """

    memory: int
    calls: list
    portals: dict = dataclasses.field(default_factory=dict)
    about: list = dataclasses.field(default_factory=list)
    comments: dict = dataclasses.field(default_factory=dict)


PORTAL = Field("portal", 1, style="portal")
IDENTITIES = {name: Field(name, 4, ANY, {"any": ANY}) for name in ("uid", "nid", "pid")}
CALLERS = {name: Field(name, 4, 0, {"any": ANY}) for name in ("nid", "pid", "uid")}
MATCH = Field("match", 8, 0, style="bits")
COUNTER = Field("counter", 1)


def entry(third):
    """The fields of an append, or with the mode in the list's place of a search."""
    return (
        PORTAL,
        third,
        Field("counter", 1, NO_COUNTER, {"none": NO_COUNTER}),
        zero(1),
        Field("options", 4, style="options"),
        Field("start", 4, 0),
        Field("length", 4, 0),
        Field("min_free", 4, 0),
        *IDENTITIES.values(),
        MATCH,
        Field("ignore", 8, 0, {"all": 2**64 - 1}, "bits"),
        Field("user", 8, 0),
    )


def request(ack, length, data, *more):
    """The fields of a put or a get."""
    return (PORTAL, ack, zero(2), *CALLERS.values(), MATCH, Field("offset", 8, 0), length, zero(4), data, *more)


CHANGE = (COUNTER, Field("success", 8, 0), Field("failure", 8, 0))
KINDS = (
    Kind(1, "append", entry(Field("list", 1, None, numbered(LISTS))), "links an entry, or takes early messages"),
    Kind(2, "unlink", (Field("handle", 4),), "unlinks an entry"),
    Kind(
        3,
        "put",
        request(
            Field("ack", 1, 0, numbered(ACKS)),
            Field("length", 4, style="length"),
            Field("data", 8, 0),
            Field("payload", 0, style="bytes"),
        ),
        "a put request arrives",
    ),
    Kind(
        4,
        "get",
        request(zero(1, "ack"), Field("length", 4, most=GET_MOST), zero(8, "header data")),
        "a get request arrives",
    ),
    Kind(5, "read_event", (), "reads the oldest event"),
    Kind(6, "read_counter", (COUNTER,), "reads a counter"),
    Kind(7, "set_counter", CHANGE, "sets a counter"),
    Kind(8, "increment", CHANGE, "adds to a counter"),
    Kind(9, "search", entry(Field("mode", 1, None, numbered(MODES))), "searches the waiting headers"),
    Kind(10, "read_register", (Field("register", 1, None, numbered(REGISTERS)),), "reads a status register"),
)
BY_NUMBER = {kind.number: kind for kind in KINDS}
BY_NAME = {kind.name: kind for kind in KINDS}
