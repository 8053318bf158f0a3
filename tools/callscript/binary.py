"""The binary form of a script (document 01, "Script and printout")."""
from .calls import BY_NUMBER, CALLS_MOST, FILE_MOST, MEMORY_MOST, Call, Script

HEAD = 8
LINE = 8


class BadScript(Exception):
    """A file that is no good script: `place` is HEAD or the number of its first bad call, `why` says what is wrong."""

    def __init__(self, place, why):
        super().__init__(f"BAD_SCRIPT {place}: {why}")
        self.place = place
        self.why = why


def bodies_at(count):
    """Where the bodies of so many calls begin."""
    return HEAD + LINE * count


def encode(script):
    """The file of a script."""
    bodies = [body_of(call) for call in script.calls]
    place = bodies_at(len(bodies))
    contents = b""
    for call, body in zip(script.calls, bodies):
        contents += number(call.kind.number, 1) + number(0, 1) + number(len(body), 2) + number(place, 4)
        place += len(body)
    file = number(len(bodies), 2) + number(0, 2) + number(script.memory, 4) + contents + b"".join(bodies)
    # What is written can be read: no file that `decode` refuses leaves here.
    decode(file)
    return file


def number(value, size):
    return value.to_bytes(size, "little")


def body_of(call):
    payload = call.values.get("payload", b"")
    parts = []
    for field in call.kind.fields:
        if field.style == "bytes":
            parts.append(payload)
        elif field.style == "length":
            parts.append(number(len(payload), field.size))
        else:
            parts.append(number(call.values.get(field.name, 0), field.size))
    return b"".join(parts)


def decode(file):
    """The script in a file. Raises BadScript exactly where document 01 has BAD_SCRIPT, with the same place."""

    def at(place, size):
        return int.from_bytes(file[place : place + size], "little")

    if len(file) > FILE_MOST:
        raise BadScript("HEAD", f"the file has {len(file):,} bytes, at most {FILE_MOST:,} are allowed")
    if len(file) < HEAD:
        raise BadScript("HEAD", f"the file has {len(file)} bytes, fewer than the {HEAD} of a head")
    count, reserved, memory = at(0, 2), at(2, 2), at(4, 4)
    if count > CALLS_MOST:
        raise BadScript("HEAD", f"the count is {count:,}, at most {CALLS_MOST:,} calls are allowed")
    if reserved != 0:
        raise BadScript("HEAD", f"the head's zero is {reserved}")
    if memory > MEMORY_MOST:
        raise BadScript("HEAD", f"the memory is {memory:,} bytes, at most {MEMORY_MOST:,} are allowed")
    place = bodies_at(count)
    if len(file) < place:
        raise BadScript("HEAD", f"the file ends at byte {len(file)}, inside its contents, which end at {place}")
    end = place + sum(at(bodies_at(i) + 2, 2) for i in range(count))
    if len(file) > end:
        raise BadScript("HEAD", f"the file has {len(file):,} bytes, but its bodies end at {end:,}")
    calls = []
    for i in range(count):
        line = bodies_at(i)
        size = at(line + 2, 2)
        try:
            calls.append(call_of(file, place, at(line, 1), at(line + 1, 1), size, at(line + 4, 4)))
        except ValueError as error:
            raise BadScript(i, str(error)) from None
        place += size
    return Script(memory, calls)


def call_of(file, place, number_of_kind, reserved, size, stated):
    """The call of one line of the contents, whose body is to be at a place. Raises ValueError where it is bad."""
    kind = BY_NUMBER.get(number_of_kind)
    if kind is None:
        raise ValueError(f"its kind is {number_of_kind}, which is none of 1 to 10")
    if reserved != 0:
        raise ValueError(f"{kind.name}: the zero of its line in the contents is {reserved}")
    if stated != place:
        raise ValueError(f"{kind.name}: its body is said to be at {stated:,}, and is at {place:,}")
    if place + size > len(file):
        raise ValueError(f"{kind.name}: its body ends at {place + size:,}, behind the file's end at {len(file):,}")
    has_payload = kind.fields and kind.fields[-1].style == "bytes"
    if size < kind.size or (size > kind.size and not has_payload):
        wanted = f"at least {kind.size}" if has_payload else kind.size
        raise ValueError(f"{kind.name}: its body has {size} bytes instead of {wanted}")
    values = {}
    for field in kind.fields:
        value = int.from_bytes(file[place : place + field.size], "little")
        place += field.size
        if field.style == "bytes":
            values[field.name] = file[place : place + size - kind.size]
        elif field.style == "length":
            if value != size - kind.size:
                raise ValueError(f"{kind.name}: its length is {value:,}, but {size - kind.size:,} bytes follow")
        elif field.style != "zero":
            if value > field.largest:
                raise ValueError(f"{kind.name}: its {field.name} is {value:,}, at most {field.largest:,} is allowed")
            values[field.name] = value
        elif value != 0:
            raise ValueError(f"{kind.name}: its {field.name} is {value} instead of 0")
    return Call(kind, values)
