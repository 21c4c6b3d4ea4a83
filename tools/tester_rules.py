"""Document 02's rule of the workshop tester (P5) as plain Python: the second, independent way to every expected output.

Written from the paragraph alone: it collects all conditions that are lost, and takes the first."""

from rules import CATALOGUE

START, READY, FAULT = 0, 6, 7
STATES = range(8)  # a step is named by how many conditions are met

# The signals of an observation, in the order in which a line has them.
SIGNALS = (1708, 1605, 311, 313, 325, 327, 301, 302, 1709, 304, 306)
WELDS = (311, 313, 325, 327)

CONDITIONS = (
    lambda count: count[1708] in (1, 2, 3),  # plug seen
    lambda count: count[1605] == 0,  # self-check good
    lambda count: all(count[weld] == 0 for weld in WELDS),  # no welded fault
    lambda count: count[301] == 2 and count[302] == 2,  # main relays closed
    lambda count: count[1709] == 1,  # charging allowed
    lambda count: count[304] == 2 and count[306] == 2,  # charge relays closed
)


def codes(number):
    """How many codes a signal's bits have room for."""
    return 2 ** CATALOGUE[number].bits


def charge_step(state, count):
    """The state after an observation, a dictionary of raw counts by signal; or ('no', 81)."""
    if any(count[number] >= codes(number) for number in SIGNALS):
        return "no", 81
    if any(count[weld] for weld in WELDS):
        return FAULT
    if state == FAULT:
        return START if count[1708] == 0 else FAULT
    lost = [i for i in range(state) if not CONDITIONS[i](count)]
    if lost:
        return min(lost)
    if state < READY and CONDITIONS[state](count):
        return state + 1
    return state
