"""Why routes loop or double: one closed chain, or two chains that join the same two places. The verdict and its route are the proved
checker's; this only looks for chains to show, and `confirmed` asks the checker about those alone before they are shown."""

from collections import deque
from typing import NamedTuple

from .texts import said_by
from .verdicts import verdict_on

LOOP, DOUBLING = 10, 11


class Route(NamedTuple):
    book: str  # the file's name
    file: tuple  # which file it is
    line: int
    text: bytes  # the line without its newline
    start: tuple  # bus and identifier, as they are written
    end: tuple


def routes_of(book):
    """The routes of a book whose R lines are well formed, in order."""
    for number, line in enumerate(book.lines(), 1):
        said = said_by(line)
        if said and said.kind == "R":
            yield Route(book.name, book.file, number, line, said.fields[:2], said.fields[2:])


def reached(routes, begun):
    """{place: the chain that reaches it}, shortest first, from chains already begun; and the first place that a second chain reaches,
    with that chain, or None."""
    chains, twice, waiting = {}, None, deque(begun)
    while waiting:
        chain = waiting.popleft()
        place = routes[chain[-1]].end
        if place in chains:
            twice = twice or (place, chain)
            continue
        chains[place] = chain
        waiting.extend(chain + [at] for at, route in enumerate(routes) if route.start == place)
    return chains, twice


def closed_chain(routes, first):
    """A shortest closed chain that begins with this route."""
    chains, _ = reached(routes, [[first]])
    return chains.get(routes[first].start)


def two_chains(routes, first):
    """Two short different chains that join the same two places, the first beginning with this route; the routes have no closed chain."""
    chains, twice = reached(routes, [[first]])
    begun = [[at] for at, route in enumerate(routes) if route.start == routes[first].start and at != first]
    others, _ = reached(routes, begun)
    pairs = [(chains[place], other) for place, other in others.items() if place in chains]
    if twice:
        place, other = twice
        pairs.append((chains[place], other))
    return min(pairs, key=lambda pair: len(pair[0]) + len(pair[1]), default=None)


def confirmed(routes, refusal):
    """Whether the proved checker refuses these routes alone, with the same number."""
    return verdict_on(b"".join(route.text + b"\n" for route in routes)).refusal == refusal


def chains_behind(routes, refusal, first):
    """The chains to show for a verdict on these routes, as lists of routes: one that closes, or two that double; none where the checker
    does not confirm them."""
    found = closed_chain(routes, first) if refusal == LOOP else two_chains(routes, first)
    if not found:
        return []
    numbers = [found] if refusal == LOOP else list(found)
    used = [routes[at] for at in sorted({at for chain in numbers for at in chain})]
    return [[routes[at] for at in chain] for chain in numbers] if confirmed(used, refusal) else []
