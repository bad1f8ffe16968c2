"""What `board FILE` prints of a study: the table and what else is asked for, or the refusal."""
import sys

from desk import files
from desk.drivers import drivers
from desk.ordering import suggestions
from desk.outcome import Refused, outcome_of
from desk.shares import breaking_column, shares
from desk.streams import Answer, fitted
from desk.studies import Options, is_plan, rounded
from desk.table import table
from desk.verdicts import is_to_heed


def told(outcome, options=Options()):
    """What became of a study, for people."""
    if isinstance(outcome, Refused):
        return Answer(1, outcome.words)
    study, found, delay, units = outcome.study, outcome.breakings, outcome.delay, outcome.units
    # names before the columns are measured
    names, sources = ([fitted(name, sys.stdout) for name in words] for words in (study.names, study.sources))
    buses = [bus._replace(name=fitted(bus.name, sys.stdout)) for bus in outcome.buses]
    said = [table(buses, breaking_column(found, delay, units), units)]
    said.append(shares(study.rows, found, delay, names, sources, units) if delay else "")
    said.append(drivers(buses, units) if options.why else "")
    said.append(suggestions(buses, units) if options.order else "")
    said += [rounded(study), outcome.confirmation]
    return Answer(0, "\n\n".join(filter(None, said)), heed=is_to_heed(buses))


def shown(path, options=Options()):
    """`board FILE`, with its options. Of rows that are too long the program says so; of a plan it could not."""
    data = files.read(path)
    return told(outcome_of(path, files.whole(path, data) if is_plan(path, data) else data, options), options)
