"""The verdicts of a study together: how many there are of each, the sentence on the whole, and the worst bus."""
from fractions import Fraction

from desk.oneline import VERDICT_WORDS

ORDER = "WCO"  # from the best to the worst


def count_of(buses, letter):
    return sum(bus.letter == letter for bus in buses)


def is_to_heed(buses):
    """Whether some bus is over or close."""
    return any(bus.letter != "W" for bus in buses)


def called(bus):
    return f"bus {bus.number}, {bus.name}" if bus.name else f"bus {bus.number}"


def whole(buses):
    """The verdict of a study in a sentence, the worst first."""
    total = len(buses)
    if not is_to_heed(buses):
        return f"All {total} buses are within their ratings." if total > 1 else "The bus is within its ratings."
    counts = [(count_of(buses, letter), VERDICT_WORDS[letter]) for letter in reversed(ORDER)]
    (first, words), *others = [(count, words) for count, words in counts if count]
    told = [f"{first} of {total} {'bus' if total == 1 else 'buses'} {'is' if first == 1 else 'are'} {words}"]
    return ", ".join(told + [f"{count} {'is' if count == 1 else 'are'} {words}" for count, words in others]) + "."


def load(bus):
    """How far a bus is loaded: the larger of the initial current over its rating and the peak over its own."""
    return max(Fraction(bus.high, bus.rating), Fraction(bus.peak, bus.peak_rating))


def worst(buses):
    """The bus with the worst verdict and, of several, the most loaded of them."""
    return max(buses, key=lambda bus: (ORDER.index(bus.letter), load(bus)))


def worst_first(buses):
    return sorted(buses, key=lambda bus: (ORDER.index(bus.letter), load(bus)), reverse=True)
