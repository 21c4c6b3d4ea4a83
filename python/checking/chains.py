"""The words below a refusal for a loop (10) or for doubling (11): the chains of routes, line by line, and what to do about them."""

from .routes import LOOP, chains_behind


def shown(route):
    return f"    {route.book}:{route.line}:\t{route.text.decode()}"


def place_words(place):
    return f"bus {place[0]}, {place[1]}"


def words_on(routes, refusal, first):
    """The paragraphs for a verdict on these routes that names this one."""
    chains = chains_behind(routes, refusal, first)
    if not chains:
        return [shown(routes[first])]
    return list(loop_words(chains[0]) if refusal == LOOP else doubling_words(*chains))


def loop_words(chain):
    yield "\n".join(shown(route) for route in chain)
    if len(chain) == 1:
        yield "The route leads from a place to itself, so the frame would be sent again and again. Strike it, or mend the place it leads to."
        return
    yield (
        f"A frame that begins at {place_words(chain[0].start)} takes these routes in this order and is there again: it would be sent again and "
        "again, and no controller would sleep. Strike or mend one of these lines, usually the one that leads backwards."
    )


def doubling_words(one, other):
    if len(one) == len(other) == 1:
        yield "\n".join(shown(route) for route in (*one, *other))
        yield repeated_words(one[0], other[0])
        return
    yield "one way:\n" + "\n".join(shown(route) for route in one)
    yield "another way:\n" + "\n".join(shown(route) for route in other)
    yield (
        f"Both lead from {place_words(one[0].start)} to {place_words(one[-1].end)}, so the frame would arrive there twice. "
        "Strike a route that only one of the two ways has. Two places that both lead to a third are fine."
    )
    for mine in one:
        for theirs in other:
            if (mine.start, mine.end) == (theirs.start, theirs.end) and mine is not theirs:
                yield repeated_words(mine, theirs)


def repeated_words(one, other):
    if (one.file, one.line) == (other.file, other.line):
        return f"{one.book}:{one.line} counts twice, since the file is named twice. Name each file once."
    if one.file == other.file:
        return f"Lines {one.line} and {other.line} are the same route, so the frame would be sent twice. Strike one of the two."
    return (
        f"{one.book}:{one.line} and {other.book}:{other.line} are the same route in two files, and each counts, as a repeated line in one "
        "book does: both gateways would send the frame. Strike it in the book of the gateway that should not hand this frame on."
    )
