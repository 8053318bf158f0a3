"""A run in the terminal: the number of each call, the call, its answer with field names, and the state if wanted."""
from .book import DENIALS
from .text import visible

COLOURS = {
    "number": "2",
    "call": "1",
    "comment": "36",
    "good": "32",
    "denied": "33",
    "refused": "35",
    "wrong": "31;1",
    "state": "2",
}
# Of a call with a long payload so much is shown.
CALL_MOST = 400


def painter(wanted):
    """Gives text a colour by the name of what it is, or leaves it."""
    return (lambda name, text: f"\033[{COLOURS[name]}m{text}\033[0m") if wanted else (lambda _name, text: text)


def tone(answer):
    """What kind of answer it is, by the name of its colour."""
    if not answer.word:
        return "wrong"
    return "refused" if answer.word == "REFUSED" else "denied" if answer.word in DENIALS else "good"


def shortened(text):
    """A call or an answer as it is shown: of a long one the beginning."""
    return text if len(text) <= CALL_MOST else f"{text[:CALL_MOST]}.. ({len(text):,} characters)"


def show(run, with_state, colour):
    """The lines of a run."""
    paint = painter(colour)
    count = len(run.steps)
    yield from (paint("comment", f"# {visible(line)}".rstrip()) for line in run.script.about)
    yield f"memory {run.script.memory} bytes, {count} call{'s' * (count != 1)}"
    width = len(str(max(count - 1, 0)))
    margin = " " * (width + 2)
    for step in run.steps:
        comment = paint("comment", "  # " + visible(step.comment)) if step.comment else ""
        yield f"{paint('number', str(step.number).rjust(width))}  {paint('call', shortened(step.call))}{comment}"
        yield f"{margin}{paint(tone(step.answer), shortened(step.said))}"
        if step.card is not None:
            yield f"{margin}{paint('wrong', 'the card: ' + shortened(step.card))}"
        yield from (f"{margin}{paint('wrong', '! ' + shortened(note))}" for note in step.notes)
        if with_state:
            yield from (margin + "    " + paint("state", line) for line in state_lines(step.after))
    yield from (paint("wrong", "! " + line) for line in run.summary)
    if run.agreement:
        yield run.agreement


def state_lines(sections):
    for title, rows in sections:
        yield title
        yield from (f"  {row.label}  {row.words}" for row in rows)
