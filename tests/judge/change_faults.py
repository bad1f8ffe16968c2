"""Faults of order 8 planted in the stand-in, each of which the fixed lists of changes have to find."""

from accept import NO_PLACE, SOURCES, Study, first_true
from exact import SourceRecord
from faults import planted_in
from reference import StandIn

CHANGE_FAULTS = {}
planted = planted_in(CHANGE_FAULTS)


def withdrawn_by(change):
    """The sources behind an accepted withdrawal are those that `change` makes of the ones before."""

    class Changed(Study):
        def withdraw(self, place):
            number, after = super().withdraw(place)
            return number, after if number else self.with_sources(change(self.sources, place))

    return Changed


def one_short(sources, place):
    """All later sources move up save the last, whose new place keeps what it had."""
    moved = sources[:place] + sources[place + 1 : -1]
    return moved + sources[len(moved) : -1]


@planted
class WithdrawalMovesOneShort(withdrawn_by(one_short)):
    pass


@planted
class LastSourceKeptBehindWithdrawal(
    withdrawn_by(lambda sources, place: sources[:place] + sources[place + 1 :] + sources[-1:])
):
    """The later sources move up, and there are as many as before."""


@planted
class WithdrawalReopensStudy(Study):
    def withdraw(self, place):
        number, after = super().withdraw(place)
        return number, after if number else after.reopen()[1]


@planted
class PlaceZeroReplaced(Study):
    """By another feeder, which is tried as the first source."""

    def replace(self, place, fields):
        if place or not self.sources:
            return super().replace(place, fields)
        record = SourceRecord(*fields)
        number = first_true(type(self)(self.tolerance, self.buses).source_grounds(record))
        return number, self if number else self.with_sources((record,) + self.sources[1:])


@planted
class PlaceTriedBehindRecord(Study):
    """34 behind the grounds in the record."""

    def replace(self, place, fields):
        number, after = super().replace(place, fields)
        if number == NO_PLACE:
            number = first_true(self.source_grounds(SourceRecord(*fields))) or NO_PLACE
        return number, after


@planted
class ReplacementRefusedWhereClosed(Study):
    """21, as an addition gets."""

    def replace(self, place, fields):
        number, after = super().replace(place, fields)
        return (21, self) if self.closed and number != NO_PLACE else (number, after)


@planted
class ReplacementJoinsTheEnd(Study):
    def replace(self, place, fields):
        number, after = super().replace(place, fields)
        if number:
            return number, after
        rest = self.sources[:place] + self.sources[place + 1 :]
        return 0, self.with_sources((*rest, SourceRecord(*fields)))


@planted
class RefusedReplacementStored(Study):
    """A machine refused for its rated voltage is entered all the same."""

    def replace(self, place, fields):
        number, after = super().replace(place, fields)
        if number != 13:
            return number, after
        return number, self.with_sources(
            self.sources[:place] + (SourceRecord(*fields),) + self.sources[place + 1 :]
        )


@planted
class ReopenedStaysClosed(Study):
    def reopen(self):
        return super().reopen()[0], self


@planted
class FreedSpaceNotUsed(StandIn):
    """A table is full when so many sources have been added, whatever has left it."""

    gone = 0

    def change(self, name, numbers):
        if name == "source" and len(self.study.sources) + self.gone >= SOURCES and not self.study.closed:
            return 24
        number = super().change(name, numbers)
        if name == "start":
            self.gone = 0
        self.gone += (name, number) == ("withdraw", 0)
        return number
