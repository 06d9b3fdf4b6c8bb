"""A basin by its leaves: where they lie, what they hold, which share an edge or a corner, and when head and tables are valid.

Written from docs/BASIN.md alone. A leaf is named by its Node, its record is a Leaf.
"""

from __future__ import annotations

from functools import lru_cache

from basin import MOST_DEPTH, MOST_HEIGHT, MOST_LOOSE, MOST_SPEED, MOST_WIDTH, Basin, Head, Leaf, Node, balanced

DRY = Leaf(0, 0, 0)


def quotient(number: int, divisor: int) -> int:
    """The division that drops the fraction toward zero, where Python's own goes down."""
    size = abs(number) // abs(divisor)
    return size if (number < 0) == (divisor < 0) else -size


def clipped(number: int, most: int) -> int:
    """The nearest number from −most to most."""
    return max(-most, min(most, number))


def finished(water: int, east: int, north: int) -> Leaf:
    """The record with its discharges brought into their range."""
    return Leaf(water, clipped(east, MOST_SPEED * water), clipped(north, MOST_SPEED * water))


def most_water(leaf: Node) -> int:
    """The most that the leaf may hold."""
    return MOST_HEIGHT * leaf.side**2


def level_at(basin: Basin, x: int, y: int) -> int:
    return basin.levels[y * basin.head.n + x]


def block_at(n: int, x: int, y: int, level: int) -> Node:
    """The block of that level in which the square lies."""
    side = n >> level
    return Node(x - x % side, y - y % side, side)


def leaf_at(basin: Basin, x: int, y: int) -> Node:
    return block_at(basin.head.n, x, y, level_at(basin, x, y))


def record(basin: Basin, leaf: Node) -> Leaf:
    return basin.leaves[leaf.y * basin.head.n + leaf.x]


def put(basin: Basin, leaf: Node, level: int, new: Leaf) -> None:
    """Makes the block a leaf of that level with that record."""
    for square in leaf.squares(basin.head.n):
        basin.levels[square] = level
        basin.leaves[square] = new


def all_leaves(basin: Basin) -> list[Node]:
    """Each leaf once, by the squares of the table."""
    n = basin.head.n
    return list(dict.fromkeys(leaf_at(basin, x, y) for y in range(n) for x in range(n)))


def bed_sum(basin: Basin, block: Node) -> int:
    """Z, for a leaf or for a block that may become one."""
    return sum(basin.beds[square] for square in block.squares(basin.head.n))


def bed_number(basin: Basin, block: Node) -> int:
    """K."""
    return quotient(bed_sum(basin, block), block.side**2)


def surface_number(basin: Basin, leaf: Node) -> int:
    """W."""
    return quotient(record(basin, leaf).water + bed_sum(basin, leaf), leaf.side**2)


def total(basin: Basin) -> int:
    return sum(record(basin, leaf).water for leaf in all_leaves(basin)) + basin.head.loose


def sharing_edge(basin: Basin, block: Node) -> set[Node]:
    """The leaves that share an edge with the block and lie outside it."""
    west, east = block.x - 1, block.x + block.side
    south, north = block.y - 1, block.y + block.side
    upright = [(x, block.y + i) for x in (west, east) for i in range(block.side)]
    level = [(block.x + i, y) for y in (south, north) for i in range(block.side)]
    return leaves_at(basin, upright + level)


def beside(basin: Basin, block: Node) -> set[Node]:
    """The leaves that share an edge or a corner with the block and lie outside it."""
    columns, rows = (block.x - 1, block.x + block.side), (block.y - 1, block.y + block.side)
    return sharing_edge(basin, block) | leaves_at(basin, [(x, y) for x in columns for y in rows])


def leaves_at(basin: Basin, places: list[tuple[int, int]]) -> set[Node]:
    """The leaves at those of the places that lie in the basin."""
    inside = range(basin.head.n)
    return {leaf_at(basin, x, y) for x, y in places if x in inside and y in inside}


def head_exists(head: Head) -> bool:
    return head.depth in range(MOST_DEPTH + 1) and head.width in range(1, MOST_WIDTH + 1) and head.loose in range(MOST_LOOSE + 1)


def right_lengths(basin: Basin) -> bool:
    size = basin.head.n**2
    return len(basin.levels) == len(basin.beds) == len(basin.leaves) == size


def in_range(leaf: Node, water: int, east: int, north: int) -> bool:
    fastest = MOST_SPEED * water
    return 0 <= water <= most_water(leaf) and abs(east) <= fastest and abs(north) <= fastest


def is_one_leaf(basin: Basin, leaf: Node) -> bool:
    """Whether the block's squares have one level and one record, and that keeps its ranges."""
    squares = leaf.squares(basin.head.n)
    level, whole = basin.levels[squares[0]], basin.leaves[squares[0]]
    same = all(basin.levels[square] == level and basin.leaves[square] == whole for square in squares)
    return same and basin.head.n >> level == leaf.side and in_range(leaf, whole.water, whole.east, whole.north)


def as_is(basin: Basin) -> tuple[Head, tuple[int, ...], tuple[int, ...], tuple[Leaf, ...]]:
    """Head and tables as they are now."""
    return basin.head, tuple(basin.levels), tuple(basin.beds), tuple(basin.leaves)


def valid(basin: Basin) -> bool:
    """Whether head and tables, of the right lengths, are a valid basin."""
    return are_valid(*as_is(basin))


@lru_cache(1_000)
def are_valid(head: Head, levels: tuple[int, ...], beds: tuple[int, ...], records: tuple[Leaf, ...]) -> bool:
    if not head_exists(head) or not all(0 <= level <= head.depth for level in levels):
        return False
    if not all(0 <= bed <= MOST_HEIGHT for bed in beds):
        return False
    basin = Basin(head, list(levels), list(beds), list(records))
    return all(is_one_leaf(basin, leaf) for leaf in all_leaves(basin)) and balanced(head.n, basin.levels)
