"""The calls over a basin: look, total, pour, draw, settle, split and merge, and those that lay out a draft.

Written from docs/BASIN.md alone. A call raises Refused before it changes anything, or changes the basin and gives its answer.
"""

from __future__ import annotations

from dataclasses import dataclass, replace

import leaves
from basin import MOST_DEPTH, MOST_HEIGHT, MOST_LOOSE, MOST_WIDTH, Basin, Head, Leaf, Node
from leaves import DRY, bed_number, bed_sum, beside, finished, leaf_at, most_water, quotient, record, sharing_edge, surface_number

MOST_AMOUNT = 122_880_000  # what the largest leaf may hold


@dataclass(eq=False)
class Refused(Exception):
    number: int
    why: str = ""  # which of the cases that share the number; no call answers it


def refuse(number: int, when: bool, why: str = "") -> None:
    if when:
        raise Refused(number, why)


def refuse_no_basin(basin: Basin) -> None:
    """Refusals 1 and 2."""
    refuse(1, not leaves.right_lengths(basin))
    refuse(2, not leaves.valid(basin))


def refuse_no_place(basin: Basin, x: int, y: int) -> None:
    """Refusals 1 to 3."""
    refuse_no_basin(basin)
    refuse(3, x >= basin.head.n or y >= basin.head.n)


def refuse_amount(amount: int) -> None:
    refuse(4, not 1 <= amount <= MOST_AMOUNT)


# Drafts


@dataclass
class Draft:
    depth: int
    width: int
    beds: list[int]

    @property
    def n(self) -> int:
        return 1 << self.depth


def open_draft(depth: int, width: int) -> Draft:
    refuse(4, depth > MOST_DEPTH, "L")
    refuse(4, not 1 <= width <= MOST_WIDTH, "d")
    return Draft(depth, width, [0] * 4**depth)


def lay(draft: Draft, x: int, y: int, bed: int) -> None:
    refuse(3, x >= draft.n or y >= draft.n)
    refuse(4, bed > MOST_HEIGHT)
    draft.beds[y * draft.n + x] = bed


def close(draft: Draft) -> Basin:
    size = draft.n**2
    return Basin(Head(draft.depth, draft.width, 0), [0] * size, list(draft.beds), [DRY] * size)


# Looking and totals


def look(basin: Basin, x: int, y: int) -> tuple[int, int, int, int, int]:
    """Level, V, W, X and Y."""
    refuse_no_place(basin, x, y)
    leaf = leaf_at(basin, x, y)
    held = record(basin, leaf)
    return leaves.level_at(basin, x, y), held.water, surface_number(basin, leaf), held.east, held.north


def total(basin: Basin) -> int:
    refuse_no_basin(basin)
    return leaves.total(basin)


# Pouring, drawing, settling


def hold(basin: Basin, leaf: Node, water: int) -> None:
    """Gives the leaf that water in place of what it held."""
    held = record(basin, leaf)
    leaves.put(basin, leaf, leaves.level_at(basin, leaf.x, leaf.y), finished(water, held.east, held.north))


def pour(basin: Basin, x: int, y: int, amount: int) -> int:
    """Answers the new W."""
    refuse_no_place(basin, x, y)
    refuse_amount(amount)
    leaf = leaf_at(basin, x, y)
    water = record(basin, leaf).water + amount
    refuse(10, water > most_water(leaf))
    hold(basin, leaf, water)
    return surface_number(basin, leaf)


def draw(basin: Basin, x: int, y: int, amount: int) -> int:
    """Answers the new W."""
    refuse_no_place(basin, x, y)
    refuse_amount(amount)
    leaf = leaf_at(basin, x, y)
    water = record(basin, leaf).water - amount
    refuse(8, water < 0)
    hold(basin, leaf, water)
    return surface_number(basin, leaf)


def settle(basin: Basin, x: int, y: int) -> int:
    """Answers how much the loose account was."""
    refuse_no_place(basin, x, y)
    leaf, loose = leaf_at(basin, x, y), basin.head.loose
    water = record(basin, leaf).water + loose
    refuse(10, water > most_water(leaf))
    hold(basin, leaf, water)
    basin.head = replace(basin.head, loose=0)
    return loose


# Splitting and merging


def is_below_water(basin: Basin, block: Node) -> bool:
    """Whether the block's K is below the W of a wet leaf that shares an edge with it."""
    wet = [leaf for leaf in sharing_edge(basin, block) if record(basin, leaf).water >= 1]
    return any(bed_number(basin, block) < surface_number(basin, leaf) for leaf in wet)


def split(basin: Basin, x: int, y: int) -> int:
    """Answers the remainder."""
    refuse_no_place(basin, x, y)
    leaf, level = leaf_at(basin, x, y), leaves.level_at(basin, x, y)
    refuse(5, level == basin.head.depth)
    refuse(6, any(other.side > leaf.side for other in beside(basin, leaf)))
    wet = record(basin, leaf).water >= 1
    return split_wet(basin, leaf, level) if wet else split_dry(basin, leaf, level)


def split_dry(basin: Basin, leaf: Node, level: int) -> int:
    refuse(7, any(is_below_water(basin, child) for child in leaf.quarters()), "dry ground below water")
    for child in leaf.quarters():
        leaves.put(basin, child, level + 1, DRY)
    return 0


def split_wet(basin: Basin, leaf: Node, level: int) -> int:
    held = record(basin, leaf)
    water_and_beds = held.water + bed_sum(basin, leaf)
    each = quotient(water_and_beds, 4)
    shares = {child: each - bed_sum(basin, child) for child in leaf.quarters()}
    left_over = water_and_beds - 4 * each
    refuse(7, any(share < 1 for share in shares.values()), "a child less than 1")
    refuse(10, any(share > most_water(child) for child, share in shares.items()))
    refuse(11, basin.head.loose + left_over > MOST_LOOSE)
    for child, share in shares.items():
        leaves.put(basin, child, level + 1, finished(share, quotient(held.east, 4), quotient(held.north, 4)))
    basin.head = replace(basin.head, loose=basin.head.loose + left_over)
    return left_over


def merge(basin: Basin, x: int, y: int) -> int:
    """Answers the new W."""
    refuse_no_place(basin, x, y)
    level = leaves.level_at(basin, x, y)
    refuse(5, level == 0, "level 0")
    block = leaves.block_at(basin.head.n, x, y, level - 1)
    four = block.quarters()
    refuse(5, any(leaf_at(basin, quarter.x, quarter.y) != quarter for quarter in four), "a sibling is no leaf")
    refuse(6, any(other.side < four[0].side for other in beside(basin, block)))
    records = [record(basin, quarter) for quarter in four]
    refuse_merge_by_water(basin, block, records)
    leaves.put(basin, block, level - 1, sum_of(records))
    return surface_number(basin, block)


def refuse_merge_by_water(basin: Basin, block: Node, records: list[Leaf]) -> None:
    wet = [held.water >= 1 for held in records]
    refuse(7, any(wet) and not all(wet), "wet and dry siblings")
    refuse(7, not any(wet) and is_below_water(basin, block), "dry ground below water")


def sum_of(records: list[Leaf]) -> Leaf:
    water = sum(held.water for held in records)
    return finished(water, sum(held.east for held in records), sum(held.north for held in records))
