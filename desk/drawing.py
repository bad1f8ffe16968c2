"""`board --svg`: the one-line diagram of a study, with the bounds, the peak and the verdict that the program gave for each bus."""
import os

from desk import diagram, oneline
from desk.figures import figures_of
from desk.records import rows_of
from desk.rewriting import with_accepted, written
from desk.studies import rounded
from desk.table import verdict_words
from desk.targets import DIAGRAM
from desk.units import WHOLE
from desk.verdicts import is_to_heed


def title_of(source):
    """What stands above the diagram: the file's name without its folder and ending."""
    return "Study" if source == "-" else os.path.splitext(os.path.basename(source))[0]


def drawn_buses(study, answers, buses, units=WHOLE):
    """What is drawn of an accepted study; the words of a verdict are those of the table."""
    rows = [row.decode("ascii").split(",") for row in rows_of(study.rows)]
    words = {bus.number: verdict_words(bus, units) for bus in buses}
    return oneline.buses_of(rows, answers, dict(enumerate(study.names)), words)


def as_diagram(source, target, force, exact):
    """Rows or a plan as a diagram. The program is asked first: what it refuses is explained and not drawn."""
    def make(study, got):
        buses = figures_of(study.rows, got)
        content = diagram.svg(drawn_buses(study, got, buses), title_of(source)).encode("utf-8")
        return written(content, target, force, DIAGRAM, rounded(study))._replace(heed=is_to_heed(buses))
    return with_accepted(source, target, exact, make)
