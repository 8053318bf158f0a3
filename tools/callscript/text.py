"""The text form of a script: one call a line."""
import dataclasses
import difflib
import re

from .binary import bodies_at
from .calls import BY_NAME, CALLS_MOST, FILE_MOST, MEMORY_MOST, OPTIONS, PORTAL, Call, Script

NAME = re.compile(r"[A-Za-z_][A-Za-z0-9_-]*")
# A run of characters up to a blank or a comment: quoted parts may hold both; a quote that is not closed goes on to the
# line's end.
RUN = r'(?:"(?:\\.|[^"\\])*(?:"|\\?$)|[^\s#"])'
# A value: blanks may stand around its "+".
VALUE = rf"{RUN}+(?:\s*\+\s*{RUN}+)*"
# A word of a line, or a field: a name, "=", and a value, unless the next field stands there.
WORD = re.compile(rf'(?P<name>[^\s#"=]+)(?:\s*=(?!\s+[^\s#"=]+\s*=)\s*(?P<value>{VALUE})?|\s*=)?|{RUN}+')
NUMBER = re.compile(r"0[xX][0-9a-fA-F](?:_?[0-9a-fA-F])*|[0-9](?:_?[0-9])*")
ESCAPES = {"n": 10, "r": 13, "t": 9, "0": 0, "\\": 92, '"': 34}
# What a byte that is not UTF-8 was read as (Python's surrogateescape).
NOT_UTF8 = re.compile("[\udc80-\udcff]")


@dataclasses.dataclass(frozen=True, order=True)
class Mistake:
    """What is wrong in a text: its line and column, both from 1, and what was expected there."""

    line: int
    column: int
    message: str


class Unexpected(Exception):
    """Mistakes within a line: the column of each, from 0, and what was expected there."""

    def __init__(self, *found):
        super().__init__(found)
        self.found = found


# ---- Reading


def parse(source):
    """The script of a text and its mistakes, in order. With a mistake the script is what could be read of it."""
    reader = Reader()
    for number, line in enumerate(source.removeprefix("\ufeff").split("\n"), 1):
        reader.read_line(number, line)
    reader.finish()
    return reader.script, sorted(reader.mistakes)


class Reader:
    def __init__(self):
        self.script = Script(0, [])
        self.mistakes = []
        # The line with the memory, or the one at which it was said that there is none.
        self.memory_line = None
        # How many calls were met, good or not.
        self.met = 0
        # The bytes of head, contents and bodies so far.
        self.bytes = bodies_at(0)
        self.line = 0

    def wrong(self, column, message):
        self.mistakes.append(Mistake(self.line, column + 1, message))

    def note(self, unexpected):
        for column, message in unexpected.found:
            self.wrong(column, message)

    def read_line(self, line, source):
        self.line = line
        foreign = NOT_UTF8.search(source)
        if foreign:
            self.met += 1
            self.wrong(foreign.start(), f"expected text in UTF-8, found the byte 0x{ord(foreign.group()) - 0xDC00:02x}")
            return
        words = list(words_of(source))
        comment = source[words[-1].end() if words else 0 :].strip()
        if words:
            self.read_words(words, comment.removeprefix("#").strip())
        elif comment and self.memory_line is None and not self.met and not self.script.portals:
            self.script.about.append(comment.removeprefix("#").strip())

    def read_words(self, words, comment):
        """A line that is neither empty nor a comment."""
        try:
            if words[0].group() == "memory":
                self.read_memory(words)
            elif words[0].group() == "portal":
                self.read_portal(words)
            else:
                self.read_call(words, comment)
        except Unexpected as mistakes:
            self.note(mistakes)

    def read_memory(self, words):
        column = words[0].start()
        if self.memory_line is not None:
            said = f"expected one memory line, before the first call (see line {self.memory_line})"
            raise Unexpected((column, said))
        self.memory_line = self.line
        if len(words) != 2:
            raise Unexpected((column, "expected `memory BYTES`"))
        self.script.memory = number_of(words[1].group(), words[1].start(), MEMORY_MOST)

    def read_portal(self, words):
        name = (len(words) > 1 and words[1]["name"]) or ""
        known = self.script.portals.get(name)
        # The name is known from here on, whatever is wrong with the line.
        self.script.portals.setdefault(name, 0)
        if len(words) != 3:
            raise Unexpected((words[0].start(), "expected `portal NAME NUMBER`"))
        if not NAME.fullmatch(words[1].group()):
            said = f"expected a name of letters, digits, _ and -, found {quoted(words[1].group())}"
            raise Unexpected((words[1].start(), said))
        if known is not None:
            raise Unexpected((words[1].start(), f"expected a new name, {name} is portal {known} already"))
        self.script.portals[name] = number_of(words[2].group(), words[2].start(), PORTAL.largest)

    def read_call(self, words, comment):
        column, word = words[0].start(), words[0].group()
        kind = BY_NAME.get(word)
        self.met += 1
        if self.met == CALLS_MOST + 1:
            self.wrong(column, f"expected at most {CALLS_MOST:,} calls, this is one more")
        if kind is None:
            names = ["memory", "portal", *BY_NAME]
            meant = closest(words[0]["name"] or "", names)
            if meant == "memory" and self.memory_line is None:
                self.memory_line = self.line
            raise Unexpected((column, f"expected {one_of(names)}, found {quoted(word)}{hint(meant)}"))
        if self.memory_line is None:
            self.memory_line = self.line
            self.wrong(column, "expected a line `memory BYTES` before the first call")
        before = len(self.mistakes)
        values = self.read_fields(kind, words)
        if len(self.mistakes) == before:
            if comment:
                self.script.comments[len(self.script.calls)] = comment
            self.add(Call(kind, {field.name: values.get(field.name, field.default) for field in kind.named}), column)

    def read_fields(self, kind, words):
        """The values of the fields that the words of a call give; a value that is wrong is None."""
        values = {}
        skipped = None
        for word, following in zip(words[1:], [*words[2:], None]):
            try:
                if word is not skipped:
                    field = field_of(kind, values, word)
                    # In `portal 0` the second word is the value, and no mistake of its own.
                    skipped = None if word["value"] or is_field(kind, following) else following
                    values[field.name] = self.read_value(field, word)
            except Unexpected as mistakes:
                self.note(mistakes)
        for field in kind.named:
            if field.default is None and field.name not in values:
                self.wrong(words[0].start(), f"expected {field.name}={form_of(field)} in this {kind.name}")
        return values

    def read_value(self, field, word):
        if not word["value"]:
            raise Unexpected((word.start(), f"expected {field.name}={form_of(field)}"))
        return value_of(field, word["value"], word.start("value"), self.script.portals)

    def add(self, call, column):
        """Adds a good call, if the file has room for it."""
        had_room = self.bytes <= FILE_MOST
        self.bytes += bodies_at(1) - bodies_at(0) + call.size
        if had_room and self.bytes > FILE_MOST:
            size = f"with this call it has {self.bytes:,}"
            self.wrong(column, f"expected a script of at most {FILE_MOST:,} bytes, {size}")
        self.script.calls.append(call)

    def finish(self):
        if self.memory_line is None:
            self.wrong(0, "expected a line `memory BYTES`, found none in this text")


def words_of(source):
    """The words of a line, up to its comment."""
    place = 0
    while True:
        while place < len(source) and source[place].isspace():
            place += 1
        found = WORD.match(source, place)
        if found is None:
            return
        yield found
        place = found.end()


def field_of(kind, values, word):
    """The field that a word is about, which is marked as given: None stands for its value."""
    fields = {field.name: field for field in kind.named}
    name = word["name"] or ""
    if not fields:
        raise Unexpected((word.start(), f"expected nothing behind {kind.name}, found {quoted(word.group())}"))
    if name not in fields:
        meant = closest(name, fields)
        if meant:
            values.setdefault(meant, None)
        found = f"found {quoted(name or word.group())}{hint(meant)}"
        raise Unexpected((word.start(), f"expected a field of {kind.name} ({', '.join(fields)}), {found}"))
    if name in values:
        raise Unexpected((word.start(), f"expected each field once, {name} is there already"))
    values[name] = None
    return fields[name]


def is_field(kind, word):
    """Whether a word is about a field, and not a value without its name."""
    return word is None or word["value"] is not None or word["name"] in [field.name for field in kind.named]


def number_of(word, column, largest):
    if not NUMBER.fullmatch(word):
        raise Unexpected((column, f"expected a number, decimal or 0x and hex digits, found {quoted(word)}"))
    is_hex = word[:2] in ("0x", "0X")
    digits = (word[2:] if is_hex else word).replace("_", "").lstrip("0") or "0"
    # A number of more digits than 2^64 has is not worked out.
    if len(digits) > 20 or int(digits, 16 if is_hex else 10) > largest:
        raise Unexpected((column, f"expected a number from 0 to {largest}, found {quoted(word)}"))
    return int(digits, 16 if is_hex else 10)


def value_of(field, word, column, portals):
    """The value that a word gives to a field."""
    if field.style == "bytes":
        return payload_of(word, column)
    if field.style == "options":
        return options_of(word, column, field.largest)
    names = portals if field.style == "portal" else field.words
    if word in names:
        return names[word]
    if NUMBER.fullmatch(word):
        return number_of(word, column, field.largest)
    found = f"found {quoted(word)}{hint(closest(word, names))}"
    raise Unexpected((column, f"expected {form_of(field, portals)} for {field.name}, {found}"))


def options_of(word, column, largest):
    """Options: names joined by "+", numbers of other bits among them; `none` alone for no option."""
    if word == "none":
        return 0
    value, mistakes = 0, []
    for part in word.split("+"):
        name = part.strip()
        at = column + len(part) - len(part.lstrip())
        column += len(part) + 1
        try:
            bits = option_of(name, at, largest)
            if value & bits:
                raise Unexpected((at, f"expected each option once, found {name} again"))
            value |= bits
        except Unexpected as mistake:
            mistakes += mistake.found
    if mistakes:
        raise Unexpected(*mistakes)
    return value


def option_of(name, column, largest):
    if name in OPTIONS:
        return 1 << OPTIONS.index(name)
    if NUMBER.fullmatch(name):
        return number_of(name, column, largest)
    if name == "none":
        raise Unexpected((column, "expected `none` alone, or options joined by +"))
    found = f"found {quoted(name)}{hint(closest(name, OPTIONS))}"
    raise Unexpected((column, f"expected options joined by + ({', '.join(OPTIONS)}), or `none`, {found}"))


def payload_of(word, column):
    """A payload: `-` for none, hex digits, or text in quotes; with `*N` behind it, N times."""
    if word == "-":
        return b""
    if word.startswith('"'):
        data, end = quoted_bytes(word, column)
    else:
        data, end = hex_bytes(word, column)
    if end == len(word):
        return data
    if word[end] != "*":
        said = f"expected the payload to end, or * and a number, found {quoted(word[end:])}"
        raise Unexpected((column + end, said))
    times = number_of(word[end + 1 :], column + end + 1, FILE_MOST)
    if times * len(data) > FILE_MOST:
        said = f"expected a payload of at most {FILE_MOST:,} bytes, this has {times * len(data):,}"
        raise Unexpected((column, said))
    return data * times


def hex_bytes(word, column):
    """The bytes of the hex digits at a word's beginning, and where they end."""
    digits = re.match(r"[0-9a-fA-F]*", word).group()
    end = len(digits)
    if not digits or (end < len(word) and word[end] != "*"):
        said = f'expected hex digits, "text" in quotes, or - alone, for a payload, found {quoted(word[end])}'
        raise Unexpected((column + end, said))
    if end % 2:
        raise Unexpected((column, f"expected two hex digits for each byte of the payload, found {end} digits"))
    return bytes.fromhex(digits), end


def quoted_bytes(word, column):
    """The bytes of the quoted text at a word's beginning, and where it ends."""
    data, mistakes = bytearray(), []
    place = 1
    while place < len(word) and word[place] != '"':
        character, escaped = word[place], word[place + 1 : place + 2]
        if character != "\\":
            if not " " <= character <= "~":
                said = f"expected printable ASCII in quotes, found {ascii(character)}: write its bytes as \\xNN"
                mistakes.append((column + place, said))
            data += character.encode("utf-8", "replace")
            place += 1
        elif escaped in ESCAPES:
            data.append(ESCAPES[escaped])
            place += 2
        elif re.fullmatch(r"x[0-9a-fA-F]{2}", word[place + 1 : place + 4]):
            data.append(int(word[place + 2 : place + 4], 16))
            place += 4
        else:
            mistakes.append((column + place, r'expected \n, \r, \t, \0, \\, \" or \x and two hex digits'))
            place += 2
    if place >= len(word):
        mistakes = mistakes or [(column, 'expected a closing " on this line')]
    if mistakes:
        raise Unexpected(*mistakes)
    return bytes(data), place + 1


# ---- What was expected


def visible(text):
    """The text with its control characters written out, so that a terminal shows them and does not obey."""
    return "".join(c if c.isprintable() or c == " " else c.encode("unicode_escape").decode() for c in text)


def quoted(word):
    word = visible(word)
    mark = "`" if '"' in word else '"'
    return mark + (word if len(word) <= 40 else word[:40] + "..") + mark


def one_of(names):
    return ", ".join(names[:-1]) + " or " + names[-1]


def closest(word, names):
    """The name that a word may have been meant as, or ""."""
    by_lower = {name.lower(): name for name in names}
    return next((by_lower[found] for found in difflib.get_close_matches(word.lower()[:80], by_lower, 1)), "")


def hint(name):
    return f" (did you mean {name}?)" if name else ""


def form_of(field, portals=()):
    """What a field's value looks like."""
    if field.style == "bytes":
        return 'HEX, "TEXT" or -'
    if field.style == "options":
        return "OPTION+OPTION.. or none"
    names = [*field.words, *(portals if field.style == "portal" else ())]
    return f"{', '.join(names)} or NUMBER" if names else "NUMBER"


# ---- Writing


def write(script):
    """The text of a script. What it gives is read back as the same script, without comments."""
    lines = [f"memory {script.memory}"]
    lines += [f"portal {name} {number}" for name, number in script.portals.items()]
    lines += [""] * bool(script.calls)
    lines += [write_call(call, script.portals) for call in script.calls]
    return "".join(line + "\n" for line in lines)


def write_call(call, portals=()):
    """A call as a line of text: the fields that must be given, and those that differ from their default."""
    words = [call.kind.name]
    for field in call.kind.named:
        value = call[field.name]
        if field.default is None or value != field.default:
            words.append(f"{field.name}={write_value(field, value, portals)}")
    return " ".join(words)


def write_value(field, value, portals=()):
    if field.style == "bytes":
        return write_payload(value)
    if field.style == "options":
        return write_options(value)
    names = portals if field.style == "portal" else field.words
    for name in names:
        if names[name] == value:
            return name
    return write_bits(value) if field.style == "bits" else str(value)


def write_bits(value):
    return str(value) if value < 10 else hex(value)


def write_options(value):
    names = [name for bit, name in enumerate(OPTIONS) if value >> bit & 1]
    above = value >> len(OPTIONS) << len(OPTIONS)
    return "+".join(names + [hex(above)] * (above != 0)) or "none"


def write_payload(data):
    if not data:
        return "-"
    if len(data) >= 8 and data == data[:1] * len(data):
        return f"{write_bytes(data[:1])}*{len(data)}"
    return write_bytes(data)


def write_bytes(data):
    if all(32 <= byte <= 126 for byte in data):
        return '"' + data.decode("ascii").replace("\\", "\\\\").replace('"', '\\"') + '"'
    return data.hex()
