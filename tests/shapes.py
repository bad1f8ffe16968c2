"""Random trees, and networks of the widest and of the deepest shape, with any number of buses and four sources to a bus, for what is timed."""
from networks import Draft, arm, random_tree

SOURCES_EACH = 4
DEEPEST, TRANSFORMERS = 18, 4


def with_sources(draft):
    draft.any_sources(SOURCES_EACH * len(draft.buses) - 1)
    return draft.mix()


def tree(rng, buses):
    """A random tree."""
    return random_tree(rng, buses, SOURCES_EACH * buses)


def star(rng, buses):
    """All buses hang from bus 0."""
    draft = Draft(rng)
    draft.feeder()
    while len(draft.buses) < buses:
        draft.branch(0)
    return with_sources(draft)


def chains(rng, buses):
    """Chains from bus 0, as deep as a network may be; the last one has what is left."""
    draft = Draft(rng)
    draft.feeder()
    while len(draft.buses) < buses:
        depth = min(DEEPEST, buses - len(draft.buses))
        arm(draft, 0, depth, min(TRANSFORMERS, depth))
    return with_sources(draft)
