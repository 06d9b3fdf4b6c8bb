"""The step: the water of all leaves moves at once, face by face.

Written from docs/BASIN.md alone. The work table that the library's call is lent has no part in what a step does, and none here.
"""

from __future__ import annotations

from collections.abc import Iterator
from dataclasses import dataclass
from math import isqrt
from typing import NamedTuple

from basin import Basin, Leaf, Node
from calls import refuse, refuse_no_basin
from flow import GRAVITY, Crossing, Rule, Side, crossing
from leaves import all_leaves, bed_number, finished, leaf_at, level_at, most_water, put, quotient, record, surface_number

MOST_TIME = 2_000


@dataclass(frozen=True)
class Pool:
    """A leaf with all that its faces ask of it, from the records before the step."""

    leaf: Node
    held: Leaf
    surface: int  # W
    bed: int  # K

    def side(self, sill: int, is_east_west: bool) -> Side:
        """The leaf's water at a face with that sill."""
        depth = max(0, self.surface - sill)
        if depth == 0:
            return Side(0, 0, 0)
        eastward, northward = quotient(self.held.east, self.held.water), quotient(self.held.north, self.held.water)
        return Side(depth, eastward, northward) if is_east_west else Side(depth, northward, eastward)


class Face(NamedTuple):
    """A face, by the leaves west and east or south and north of it. None is beyond a wall."""

    first: Node | None
    second: Node | None
    is_east_west: bool


@dataclass
class Change:
    """What a leaf's record becomes, not yet finished."""

    water: int
    east: int
    north: int

    def add(self, is_east_west: bool, across: int, along: int) -> None:
        east, north = (across, along) if is_east_west else (along, across)
        self.east += east
        self.north += north


def faces(basin: Basin) -> Iterator[Face]:
    """Every face once: of each leaf those to the east and north, and its walls to the west and south."""
    n = basin.head.n
    for leaf in all_leaves(basin):
        along = range(leaf.side)
        if leaf.x == 0:
            yield Face(None, leaf, True)
        if leaf.y == 0:
            yield Face(None, leaf, False)
        east, north = leaf.x + leaf.side, leaf.y + leaf.side
        to_the_east = {leaf_at(basin, east, leaf.y + i) for i in along} if east < n else {None}
        to_the_north = {leaf_at(basin, leaf.x + i, north) for i in along} if north < n else {None}
        for other in to_the_east:
            yield Face(leaf, other, True)
        for other in to_the_north:
            yield Face(leaf, other, False)


def pools_of(basin: Basin) -> dict[Node, Pool]:
    return {
        leaf: Pool(leaf, record(basin, leaf), surface_number(basin, leaf), bed_number(basin, leaf)) for leaf in all_leaves(basin)
    }


def sides(pools: dict[Node, Pool], face: Face) -> tuple[Side, Side]:
    """Sides 1 and 2 of the face."""
    here = [pools[leaf] for leaf in face[:2] if leaf is not None]
    sill = max(pool.bed for pool in here)
    water = [pool.side(sill, face.is_east_west) for pool in here]
    if face.first is None:
        return water[0].beyond_wall(), water[0]
    if face.second is None:
        return water[0], water[0].beyond_wall()
    return water[0], water[1]


def length(face: Face) -> int:
    return min(leaf.side for leaf in face[:2] if leaf is not None)


def is_too_long(pool: Pool, time: int, width: int) -> bool:
    """Refusal 9 for one leaf."""
    held, leaf = pool.held, pool.leaf
    if held.water == 0:
        return False
    speed = max(abs(quotient(held.east, held.water)), abs(quotient(held.north, held.water)))
    wave = isqrt(GRAVITY * quotient(held.water, leaf.side**2))
    return 4 * (speed + wave) * time > 1_000_000 * width * leaf.side


def giver(face: Face, wish: int) -> Node | None:
    """The leaf that the wish leads out of."""
    return face.first if wish > 0 else face.second


def drained(pools: dict[Node, Pool], wishes: dict[Face, int]) -> dict[Face, int]:
    """The amounts that move: no leaf gives more than it holds."""
    asked = {leaf: 0 for leaf in pools}
    for face, wish in wishes.items():
        if wish != 0 and (leaf := giver(face, wish)) is not None:
            asked[leaf] += abs(wish)

    def amount(face: Face, wish: int) -> int:
        leaf = giver(face, wish)
        if wish == 0 or leaf is None or asked[leaf] <= pools[leaf].held.water:
            return wish
        return quotient(wish * pools[leaf].held.water, asked[leaf])

    return {face: amount(face, wish) for face, wish in wishes.items()}


def changed(pools: dict[Node, Pool], crossings: dict[Face, Crossing], amounts: dict[Face, int]) -> dict[Node, Change]:
    """The records after the amounts have moved and the discharges changed."""
    after = {leaf: Change(pool.held.water, pool.held.east, pool.held.north) for leaf, pool in pools.items()}
    for face, (_, fall, rise, drift) in crossings.items():
        if face.first is not None:
            after[face.first].water -= amounts[face]
            after[face.first].add(face.is_east_west, -fall, -drift)
        if face.second is not None:
            after[face.second].water += amounts[face]
            after[face.second].add(face.is_east_west, rise, drift)
    return after


def step(basin: Basin, time: int, rule: Rule) -> int:
    """Answers the sum of the sizes of the amounts that moved."""
    refuse_no_basin(basin)
    refuse(4, not 1 <= time <= MOST_TIME)
    pools, width = pools_of(basin), basin.head.width
    refuse(9, any(is_too_long(pool, time, width) for pool in pools.values()))
    crossings = {face: crossing(rule, *sides(pools, face), length(face), time, width) for face in faces(basin)}
    amounts = drained(pools, {face: numbers.wish for face, numbers in crossings.items()})
    after = changed(pools, crossings, amounts)
    refuse(10, any(change.water > most_water(leaf) for leaf, change in after.items()))
    for leaf, change in after.items():
        put(basin, leaf, level_at(basin, leaf.x, leaf.y), finished(change.water, change.east, change.north))
    return sum(abs(amount) for amount in amounts.values())
