"""The words of each ground for people, by its number. README.md has the same numbers in its table of the grounds; tests/check-board compares."""

GROUNDS = {
    1: "the tolerance is not 6 or 10",
    2: "the nominal voltage is out of range",
    3: "the parent is not a bus with a smaller number (bus 0 has parent 0)",
    4: "the branch kind is not 1 for a line or 2 for a transformer (bus 0 has kind 0)",
    5: "a branch field is out of range, is not used and not 0, or r and x are both 0",
    6: "a line joins two different nominal voltages",
    7: "a rated voltage of the transformer is not within 9/10 to 11/10 of its bus's nominal voltage",
    8: "the bus is too deep: too many branches, or too many transformers, lead to it from bus 0",
    9: "a rating is out of range",
    10: "the source kind is not 1 to 5",
    11: "there is no such bus for the source",
    12: "a source field is out of range, or is not used and not 0",
    13: "the rated voltage of the machine, of a power station unit on its high side, is not within 9/10 to 11/10 of its bus's nominal voltage",
    14: "the first source is not a feeder, a feeder is elsewhere than at bus 0, or it is a second one",
    15: "there is no such bus",
    16: "the text breaks the form of a study file",
    21: "the study is closed already",
    22: "the study is not closed",
    23: "the bus table is full",
    24: "the source table is full",
    25: "the study has no source",
    30: "the buffer lent for the study's text, or the table lent for a breaking current, is too short",
    31: "the minimum delay of a breaking current is not 20, 50, 100 or 250 ms",
    32: "the rated voltage of the power station unit's generator is not within 9/10 to 11/10 of its transformer's on the low side",
    33: "the table lent for a report is shorter than six times the buses",
    34: "no source stands at the place that is to be withdrawn or replaced, or the place is 0, the feeder's",
}


def words_of(number):
    """The words of a ground; a program of a later edition may give a number that is not here."""
    return GROUNDS.get(number, "a ground that this command does not know")
