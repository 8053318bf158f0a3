"""A script beside its printout: what is shown of each call, in the terminal and on a page."""
import dataclasses

from .book import Book
from .printout import Answer, read, read_answer, say
from .state import sections
from .text import visible, write_call

# Stands for a line that is missing.
NO_ANSWER = Answer("(no answer)")


@dataclasses.dataclass
class Step:
    """One call: its text, its comment, its answer with field names, what is wrong with it, and the state after it.

    `card` is what a card answered, where that is something else than the answer; None where it is the same.
    """

    number: int
    call: str
    comment: str
    answer: Answer
    said: str
    notes: list
    card: object
    after: list


@dataclasses.dataclass
class Run:
    script: object
    before: list
    steps: list
    # What is wrong with the lines of the printouts beside the answers.
    stray: list
    compared: bool

    @property
    def differing(self):
        """The numbers of the calls that the card answers in another way."""
        return [step.number for step in self.steps if step.card is not None]

    @property
    def doubtful(self):
        """The numbers of the calls whose answer is not the one that was expected."""
        return [step.number for step in self.steps if step.notes]

    @property
    def summary(self):
        """What is wrong with the run as a whole: a line for each thing, none where all is as expected."""
        lines = list(self.stray)
        if self.doubtful:
            lines.append(f"{some(self.doubtful, 'answer')} not as expected, the first at call {self.doubtful[0]}")
        if self.differing:
            count = f"{len(self.differing)} of {len(self.steps)} calls"
            lines.append(f"the card differs at {count}, the first is call {self.differing[0]}")
        return lines

    @property
    def agreement(self):
        """What is said of a card that answers every call as the printout does; else nothing."""
        if not self.compared or self.differing:
            return ""
        return f"the card answers all {len(self.steps)} calls as the printout does"


def run_of(script, printout, card=None):
    """The run of a script with the text of its printout and, to compare with it, that of a card's."""
    answers = read(printout, script)
    others = None if card is None else read(card, script)
    book = Book(script.memory)
    before = sections(book, script.portals)
    steps = []
    for number, call in enumerate(script.calls):
        answer = answers.answers.get(number, NO_ANSWER)
        other = answer if others is None else others.answers.get(number, NO_ANSWER)
        notes = notes_on(book, call, answer)
        book.hear(call, answer)
        steps.append(
            Step(
                number=number,
                call=write_call(call, script.portals),
                comment=script.comments.get(number, ""),
                answer=answer,
                said=said_of(call, answer),
                notes=notes,
                card=None if other.text == answer.text else said_of(call, other),
                after=sections(book, script.portals),
            )
        )
    return Run(script, before, steps, strays("the printout", answers) + strays("the card", others), card is not None)


def some(things, name):
    return f"{len(things)} {name}{' is' if len(things) == 1 else 's are'}"


def said_of(call, answer):
    """An answer with the names of its fields, or what stands in its place."""
    if answer is NO_ANSWER:
        return answer.text
    return say(answer) if answer.word else f"{say(answer)}, which is no answer to {call.kind.name}"


def notes_on(book, call, answer):
    """What is wrong with an answer, as far as the calls and answers before it tell."""
    expected = book.expected(call)
    if expected == answer.text:
        return []
    right = say(read_answer(call.kind.name, expected))
    return [f"expected after the answers before it: {right}"]


def strays(whose, printout):
    if printout is None:
        return []
    lines = [f"{whose}, line {at}, answers no call in its turn: {visible(line)}" for at, line in printout.stray[:5]]
    if len(printout.stray) > 5:
        lines.append(f"{whose} has {len(printout.stray) - 5} more such lines")
    return lines + ([f"{whose} says BAD_SCRIPT {printout.verdict}"] if printout.verdict else [])
