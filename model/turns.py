"""The eight turns, of places, of records and of basins, and which turn two turns make.

Written from docs/BASIN.md alone.
"""

from __future__ import annotations

from basin import Basin, Head, Leaf
from calls import refuse, refuse_no_basin

TURNS = range(8)


def parts(turn: int) -> tuple[int, int]:
    """How many flips, and then how many quarter turns."""
    return divmod(turn, 4)


def turned_place(head: Head, x: int, y: int, turn: int) -> tuple[int, int]:
    """Where the turn takes a place. One outside the basin stays where it is."""
    refuse(4, turn not in TURNS)
    last = head.n - 1
    if x > last or y > last:
        return x, y
    flips, quarters = parts(turn)
    for _ in range(flips):
        x = last - x
    for _ in range(quarters):
        x, y = last - y, x
    return x, y


def turned_record(held: Leaf, turn: int) -> Leaf:
    east, north = held.east, held.north
    flips, quarters = parts(turn)
    for _ in range(flips):
        east = -east
    for _ in range(quarters):
        east, north = -north, east
    return Leaf(held.water, east, north)


def turned(basin: Basin, turn: int) -> Basin:
    """A second basin; the first stays as it is."""
    refuse_no_basin(basin)
    refuse(4, turn not in TURNS)
    head, n = basin.head, basin.head.n
    second = Basin(head, list(basin.levels), list(basin.beds), list(basin.leaves))
    for y in range(n):
        for x in range(n):
            new_x, new_y = turned_place(head, x, y, turn)
            old, new = y * n + x, new_y * n + new_x
            second.levels[new] = basin.levels[old]
            second.beds[new] = basin.beds[old]
            second.leaves[new] = turned_record(basin.leaves[old], turn)
    return second


def composite(first: int, then: int) -> int:
    """The turn that the two make. A quarter turn before a flip is one the other way after it."""
    refuse(4, first not in TURNS or then not in TURNS)
    flips, quarters = parts(first)
    more_flips, more_quarters = parts(then)
    if more_flips == 1:
        quarters = -quarters
    return 4 * ((flips + more_flips) % 2) + (quarters + more_quarters) % 4


def inverse(turn: int) -> int:
    """The turn that undoes it."""
    return next(back for back in TURNS if composite(turn, back) == 0)
