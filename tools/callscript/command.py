"""The command bin/callscript."""
import argparse
import os
import pathlib
import subprocess
import sys
import unicodedata

from . import binary, page, printout, run, terminal, text
from .calls import KINDS, OPTIONS

ROOT = pathlib.Path(__file__).resolve().parent.parent.parent
ABOUT = """\
Call scripts as text: turned into the binary form that bin/replay runs and a card is fed with, and back; and a run of a
script for the eye, each call beside its answer, in the terminal or as one HTML page with the lists, the waiting
headers and the event queue after each call.
"""
FORM = """\
The text form. One call a line, `#` begins a comment:

    memory 16                      # the size of the memory in bytes, before the first call
    portal halo 3                  # from here on `halo` is a name for portal 3

    append portal=halo list=overflow options=OP_PUT+MANAGE_LOCAL length=8 ignore=all user=7
    put    portal=halo ack=full nid=1 pid=2 uid=3 match=5 data=9 payload="abc"
    read_event

The calls and their fields:

{calls}

A field that is not given has the value in brackets; those without one must be given. They may stand in any order. A
number is decimal, or hex behind 0x, and _ may stand between digits. Any number that the field can hold is taken, also
one that the target will refuse. Words for numbers: list priority, overflow; mode look, delete; ack none, full,
counting, operation; register drop, permission, operation; counter none; uid, nid and pid any; ignore all. Options are
joined by +:
{options};
`none` for no option, and other bits as numbers. A payload is hex digits, two for a byte; or printable text in quotes,
with \\n \\r \\t \\0 \\\\ \\" and \\xNN; or - for no bytes; *N behind it repeats it N times. A script has at most 1,024
calls and in binary form 32,768 bytes; its memory, and the length of a get, are at most 16,384.

A run. Behind the call and its answer stands, where a card is compared, the card's other answer; and where an answer is
not the one that was to be expected after the calls and answers before it, what was. This is worked out by the command
itself, which is not proved: a card is judged by comparing it with the printout of bin/replay, which is.

Exit status: 0 all is well; 1 the text has mistakes, the script is bad, an answer is not as expected, or the card
differs; 2 wrong usage, a file that cannot be read or written, or a printout that could not be had.

Example: bin/callscript show examples/worked.call
         bin/callscript page examples/trace-denial.call -o denial.html
         bin/callscript pack my.call -o my.bin && bin/replay my.bin
"""


class Failure(Exception):
    """What ends the command: the lines for standard error, and the exit status."""

    def __init__(self, status, *lines):
        super().__init__("\n".join(lines))
        self.status = status


def main(words):
    options = arguments().parse_args(words)
    try:
        if sys.stdout is None:
            raise Failure(2, "callscript: standard output is closed")
        if hasattr(sys.stdout, "reconfigure"):
            sys.stdout.reconfigure(errors="backslashreplace")
        status = options.action(options)
        sys.stdout.flush()
        return status
    except Failure as failure:
        print(failure, file=sys.stderr)
        return failure.status
    except OSError as error:
        # Standard output takes no more: nothing is written at the end of the program either.
        os.dup2(os.open(os.devnull, os.O_WRONLY), sys.stdout.fileno())
        if not isinstance(error, BrokenPipeError):
            print(f"callscript: standard output: {error.strerror}", file=sys.stderr)
        return 2
    except KeyboardInterrupt:
        return 130


def arguments():
    parser = argparse.ArgumentParser(
        prog="callscript", description=ABOUT, epilog=form(), formatter_class=argparse.RawDescriptionHelpFormatter
    )
    actions = parser.add_subparsers(metavar="COMMAND", required=True)

    def add(name, action, what, about):
        one = actions.add_parser(name, help=about, description=about[0].upper() + about[1:] + ".")
        one.set_defaults(action=action)
        one.add_argument("file", metavar=what, help="a file, or - for standard input")
        return one

    def add_output(one):
        one.add_argument("-o", "--output", metavar="FILE", default="-", help="instead of standard output")

    def add_printouts(one):
        one.add_argument("--printout", metavar="FILE", help="the script's printout; without it bin/replay makes it")
        one.add_argument("--card", metavar="FILE", help="a card's printout, to be compared with the script's")

    add_output(add("pack", pack, "TEXT", "turn a script in text form into the binary form"))
    add_output(add("unpack", unpack, "BINARY", "turn a script in binary form into the text form"))
    one = add("show", show, "SCRIPT", "show a run in the terminal; the script is in either form")
    add_printouts(one)
    one.add_argument("--state", action="store_true", help="show the state after each call too")
    one.add_argument("--colour", choices=("auto", "always", "never"), default="auto", help="auto: in a terminal")
    one = add("page", write_page, "SCRIPT", "write a run as one HTML page; the script is in either form")
    add_printouts(one)
    add_output(one)
    return parser


def form():
    lines = []
    for kind in KINDS:
        fields = [
            field.name if field.default is None else f"{field.name} [{text.write_value(field, field.default)}]"
            for field in kind.named
        ]
        lines.append(f"    {kind.name:14}{kind.meaning}")
        lines += wrapped(" " * 18, ", ".join(fields), ", ") if fields else []
    return FORM.format(calls="\n".join(lines), options="\n".join(wrapped("", ", ".join(OPTIONS), ", ")))


def wrapped(begin, words, between):
    """Words behind a beginning, in lines of at most 112 characters."""
    lines = [begin]
    for word in words.split(between):
        if len(lines[-1]) + len(word) > 110:
            lines.append(" " * len(begin))
        lines[-1] += word + between
    lines[-1] = lines[-1].removesuffix(between)
    return [line.rstrip() for line in lines]


# ---- The commands


def pack(options):
    script = parsed(options.file, read_file(options.file))
    if options.output == "-" and sys.stdout.isatty():
        raise Failure(2, "callscript: the binary form is not for a terminal: use -o FILE")
    write_file(options.output, binary.encode(script))
    return 0


def unpack(options):
    script = decoded(options.file, read_file(options.file))
    write_file(options.output, text.write(script).encode())
    return 0


def show(options):
    shown = run_for(options)
    colour = options.colour == "always" or (
        options.colour == "auto" and sys.stdout.isatty() and not os.environ.get("NO_COLOR")
    )
    for line in terminal.show(shown, options.state, colour):
        print(line)
    return 1 if shown.summary else 0


def write_page(options):
    shown = run_for(options)
    name = "standard input" if options.file == "-" else pathlib.Path(options.file).name
    write_file(options.output, page.page(shown, text.visible(name)).encode())
    return 1 if shown.summary else 0


def run_for(options):
    """The run of a script in either form: a binary one has a byte of 0, a text has none."""
    if [options.file, options.printout, options.card].count("-") > 1:
        raise Failure(2, "callscript: only one file can be standard input")
    file = read_file(options.file)
    script = decoded(options.file, file) if b"\0" in file else parsed(options.file, file)
    if options.printout is None:
        said = replayed(binary.encode(script))
    else:
        said = printout_in(options.printout)
    card = None if options.card is None else printout_in(options.card)
    answers = printout.read(said, script)
    if card is not None and (answers.stray or len(answers.answers) != len(script.calls)):
        count = f"{len(answers.answers)} of {len(script.calls)} calls"
        lacking = f"it answers {count}, with {len(answers.stray)} other lines"
        name = options.printout or "bin/replay"
        raise Failure(2, f"callscript: {name}: no printout of this script to compare a card with: {lacking}")
    return run.run_of(script, said, card)


def printout_in(name):
    return read_file(name).decode("utf-8", "backslashreplace")


def replayed(file):
    """The printout of a script, by the reference target."""
    program = ROOT / "bin" / "replay"
    try:
        done = subprocess.run([str(program), "-"], input=file, stdout=subprocess.PIPE, check=False)
    except OSError as error:
        raise Failure(2, f"callscript: {program}: {error.strerror}") from None
    if done.returncode != 0:
        raise Failure(2, "callscript: bin/replay gave no printout; one from a file can be shown with --printout FILE")
    return done.stdout.decode("ascii", "backslashreplace")


# ---- Files


def read_file(name):
    try:
        if name != "-":
            return path_of(name).read_bytes()
        if sys.stdin is None:
            raise Failure(2, "callscript: standard input is closed")
        return sys.stdin.buffer.read()
    except OSError as error:
        raise Failure(2, f"callscript: {text.quoted(name)}: {error.strerror}") from None


def write_file(name, data):
    if name == "-":
        # A stream without a buffer may take a part.
        rest = memoryview(data)
        while rest:
            rest = rest[sys.stdout.buffer.write(rest) :]
        return
    try:
        path_of(name).write_bytes(data)
    except OSError as error:
        raise Failure(2, f"callscript: {text.quoted(name)}: {error.strerror}") from None


def path_of(name):
    # The empty name would be the folder that the command was called in.
    if not name:
        raise Failure(2, "callscript: expected the name of a file, found an empty one")
    return pathlib.Path(name)


def decoded(name, file):
    try:
        return binary.decode(file)
    except binary.BadScript as bad:
        other = "" if b"\0" in file else "; it has no byte of 0: is it a script in text form?"
        raise Failure(1, f"{name}: {bad}{other}") from None


def parsed(name, file):
    """The script of a text, or all its mistakes."""
    if b"\0" in file:
        raise Failure(1, f"{name}: expected a text, found a byte of 0: is it a script in binary form?")
    source = file.decode("utf-8", "surrogateescape")
    script, mistakes = text.parse(source)
    if mistakes:
        lines = source.removeprefix("\ufeff").split("\n")
        said = [line for mistake in mistakes for line in mistake_lines(name, mistake, lines[mistake.line - 1])]
        raise Failure(1, *said, f"{name}: {len(mistakes)} mistake{'s' * (len(mistakes) != 1)}, nothing was made of it")
    return script


def mistake_lines(name, mistake, line):
    """A mistake, and its line with a mark below the column; of a long line the part around it."""
    yield f"{name}:{mistake.line}:{mistake.column}: {mistake.message}"
    begin = max(mistake.column - 1 - 60, 0)
    part = line[begin : begin + 100].rstrip()
    dots = ".." if begin else ""
    yield "    " + dots + "".join(map(shown, part)) + (".." if begin + 100 < len(line) else "")
    yield "    " + " " * len(dots) + "".join(map(blank, line[begin : mistake.column - 1])) + "^"


def shown(character):
    """A character as it stands in a line that is shown: what a terminal would obey is shown as "?"."""
    return character if character.isprintable() or character in "\t " else "?"


def blank(character):
    """Blanks as wide as a character is shown."""
    if character == "\t":
        return "\t"
    if unicodedata.combining(character):
        return ""
    return "  " if unicodedata.east_asian_width(character) in "WF" else " "
