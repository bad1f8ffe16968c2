"""Power station units, document 02's order 5, put into drawn studies. tests/check-plan and tests/check-page use it; tests/judge, which
draws the studies, has to be on the path."""
import networks

SOURCE_NUMBERS, MOST_SOURCES = 12, 512


def any_unit(rng, bus, volts):
    """The numbers of a unit at a bus of these nominal volts."""
    def draw(low, high):
        return networks.amount(rng, low, high)

    low, uk = draw(90, 462_000), draw(100, 30_000)
    return [5, bus, draw(*networks.rated_ends(low)), draw(10, 10**6), draw(1000, 100_000), draw(0, 200), draw(70, 100), low,
            draw(*networks.rated_ends(volts)), draw(10, 10**6), uk, draw(0, uk - 1)]


def with_units(rng, data, most=3):
    """A drawn study with up to so many units more, each anywhere below the feeder and its bus, and with rows of seven numbers and
    of twelve for the other sources."""
    rows = data.decode().removesuffix("\r\n").split("\r\n")
    rows = [row + ",0" * (SOURCE_NUMBERS - row.count(",")) if row[0] == "P" and rng.random() < 0.5 else row for row in rows]
    sources = sum(row[0] == "P" for row in rows)
    for _ in range(min(rng.randint(1, most), MOST_SOURCES - sources)):
        buses = [place for place, row in enumerate(rows) if row[0] == "B"]
        bus = rng.randrange(len(buses))
        first = max(buses[bus], next(place for place, row in enumerate(rows) if row[0] == "P"))
        unit = any_unit(rng, bus, int(rows[buses[bus]].split(",")[2]))
        rows.insert(rng.randint(first + 1, len(rows)), ",".join(map(str, ["P", *unit])))
    return "\r\n".join(rows + [""] * rng.randint(0, 1)).encode()
