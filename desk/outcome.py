"""What becomes of a study, for all forms in which it is shown or handed on: accepted with its figures, or refused with its explanation."""
import re
from typing import NamedTuple

from desk.breaking import breakings
from desk.confirming import confirmed, sentence
from desk.figures import figures_of
from desk.plan import Mistakes
from desk.program import Refusal, answer
from desk.refusals import Explanation
from desk.show import visible
from desk.studies import Study, explanation_of, from_plan, is_plan, mistakes_head, mistaken
from desk.units import KILO, WHOLE, Units


class Accepted(NamedTuple):
    study: Study
    answers: list      # what the program printed for each bus
    buses: list        # their Figures
    delay: str         # of the breaking currents, in ms; empty where none were asked for
    breakings: list    # the Breaking of each bus, where they were
    units: Units       # in which people read them
    confirmation: str  # what the second opinion says, where it was asked for


class Mistake(NamedTuple):
    """A mistake of a plan; the line is 0 where it belongs to none."""
    line: int
    words: str


class Refused(NamedTuple):
    """A study that is not accepted: the explanation of the program's refusal, or else the mistakes of the plan."""
    head: str   # the first sentence
    words: str  # all of it, as it is printed
    explanation: Explanation | None = None
    mistakes: tuple = ()


def mistake_of(words):
    """A mistake with its line apart, from the words that begin with it."""
    line, said = re.fullmatch(r"(?:line (\d+): )?(.*)", visible(words)).groups()
    return Mistake(int(line or 0), said)


def accepted(study, answers, options):
    """An accepted study with all that is asked for."""
    delay = options.delay
    buses = figures_of(study.rows, answers, study.names)
    found = breakings(study.rows, delay) if delay else []
    words = sentence(confirmed(study.rows, buses, found, delay), delay) if options.confirm else ""
    return Accepted(study, answers, buses, delay, found, KILO if options.units else WHOLE, words)


def outcome_of(path, data, options):
    """What becomes of the content of a file."""
    try:
        study = from_plan(data, options.exact) if is_plan(path, data) else Study(data)
    except Mistakes as found:
        return Refused(mistakes_head(found), mistaken(found), mistakes=tuple(map(mistake_of, found.mistakes)))
    return judged(study, options)


def judged(study, options):
    """What becomes of a study: the program is asked."""
    got = answer(study.rows)
    if isinstance(got, Refusal):
        explained = explanation_of(study, got)
        return Refused(explained.head(), explained.text(), explained)
    return accepted(study, got, options)
