"""Test files for the program `sheet`: sound ones, and damaged ones with each damage aimed.

A case is a kind and the bytes; what a kind has before its colon is the group it is counted under.
"""

from __future__ import annotations

from collections.abc import Iterator
from itertools import cycle
from random import Random

from basin import EDGES, EDGES_AND_CORNERS, LOOKED_AT
from basin import MOST_DEPTH, MOST_GROUPS, MOST_HEIGHT, MOST_LOOSE, MOST_SPEED, MOST_WIDTH
from basin import Basin, Head, Leaf, Node, Number, balanced, encode, nodes, numbers, touching, write

Case = tuple[str, bytes]

HUGE = 1 << 7 * MOST_GROUPS  # the least number that six groups cannot hold
DEPTHS = (3, 0, 1, 2, 4, 3, 1, 2, 5, 3, 2, 6)  # of the rounds: mostly small basins


def leaf_at(n: int, levels: list[int], square: int) -> Node:
    y, x = divmod(square, n)
    side = n >> levels[square]
    return Node(x - x % side, y - y % side, side)


def split(n: int, levels: list[int], leaf: Node) -> None:
    for square in leaf.squares(n):
        levels[square] += 1


def random_levels(rng: Random, n: int) -> list[int]:
    """Splits at random, then splits each leaf that lies two levels above a neighbour."""
    levels = [0] * n**2
    keenness = rng.choice((0.4, 0.6, 0.8, 1.0))

    def grow(node: Node) -> None:
        if node.side > 1 and rng.random() < keenness:
            split(n, levels, node)
            for quarter in node.quarters():
                grow(quarter)

    grow(Node(0, 0, n))
    while coarse := {one for one, other in touching(n, EDGES_AND_CORNERS) if levels[other] - levels[one] > 1}:
        for leaf in {leaf_at(n, levels, square) for square in coarse}:
            split(n, levels, leaf)
    return levels


def unbalanced_levels(rng: Random, n: int, by_corner: bool) -> list[int]:
    """A balanced tree with one split too many, which no edge betrays if by_corner."""
    while True:
        levels = random_levels(rng, n)
        for square in rng.sample(range(n**2), 8):
            leaf, tried = leaf_at(n, levels, square), levels.copy()
            if leaf.side > 1:
                split(n, tried, leaf)
                if not balanced(n, tried) and balanced(n, tried, EDGES) == by_corner:
                    return tried


def random_leaf(rng: Random, area: int) -> Leaf:
    most = MOST_HEIGHT * area
    water = rng.choice((0, 1, most, rng.randint(0, most), rng.randint(0, most)))
    fastest = MOST_SPEED * water
    east, north = (rng.choice((0, -fastest, fastest, rng.randint(-fastest, fastest))) for _ in range(2))
    return Leaf(water, east, north)


def random_basin(rng: Random, depth: int, levels: list[int] | None = None) -> Basin:
    """With this tree, or with a random balanced one."""
    width = rng.choice((1, MOST_WIDTH, rng.randint(1, MOST_WIDTH)))
    head = Head(depth, width, rng.choice((0, MOST_LOOSE, rng.randint(0, MOST_LOOSE))))
    levels = levels or random_levels(rng, head.n)
    heights = rng.choice(((0,), (MOST_HEIGHT,), (0, MOST_HEIGHT), range(MOST_HEIGHT + 1)))
    basin = Basin(head, levels, rng.choices(heights, k=len(levels)), [Leaf(0, 0, 0)] * len(levels))
    for node, is_leaf in nodes(basin):
        if is_leaf:
            leaf = random_leaf(rng, node.side**2)
            for square in node.squares(head.n):
                basin.leaves[square] = leaf
    return basin


def fullest(level: int, sign: int = 1) -> Basin:
    """The largest basin with all leaves of this level and every number at its most."""
    water, size = MOST_HEIGHT * 4 ** (MOST_DEPTH - level), 4**MOST_DEPTH
    leaf = Leaf(water, sign * MOST_SPEED * water, -sign * MOST_SPEED * water)
    head = Head(MOST_DEPTH, MOST_WIDTH, MOST_LOOSE)
    return Basin(head, [level] * size, [MOST_HEIGHT] * size, [leaf] * size)


def padded(value: int, groups: int) -> bytes:
    """The number in that many groups, the last ones 0; in its shortest form if that is as long."""
    short = encode(value)
    more = groups - len(short)
    return short[:-1] + bytes([short[-1] | 128]) + b"\x80" * (more - 1) + b"\x00" if more > 0 else short


def going_on(rng: Random, groups: int) -> bytes:
    """Groups that each say another one follows."""
    return bytes(rng.randint(128, 255) for _ in range(groups))


def wrong_numbers(rng: Random, number: Number) -> Iterator[Case]:
    """What to put in a number's place."""
    _, value, most = number
    yield "range: one beyond", encode(most + 1)
    yield "range: two beyond", encode(most + 2)  # a signed number's other side
    yield "range: beyond", encode(rng.randint(most + 1, min(128 * most + 128, HUGE - 1)))
    yield "range: six groups", encode(rng.randrange(max(most + 1, HUGE >> 7), HUGE))
    yield "range: the largest number", encode(HUGE - 1)
    yield "edge: most", encode(most)
    yield "edge: one less", encode(max(most - 1, 0))
    yield "edge: zero", encode(0)  # out of range for d
    yield "form: a zero group", padded(value, len(encode(value)) + 1)
    yield "form: a zero group and beyond", padded(most + 1, len(encode(most + 1)) + 1)
    yield "form: padded to six", padded(value, MOST_GROUPS)
    yield "form: padded to seven", padded(value, MOST_GROUPS + 1)
    yield "form: seven groups", going_on(rng, MOST_GROUPS) + bytes([rng.randint(1, 127)])


def endings(rng: Random, number: Number) -> Iterator[Case]:
    """What to put in a number's place as the last bytes of the file."""
    yield "cut: before", b""
    yield "cut: after", encode(number.value)
    yield "cut: inside", going_on(rng, rng.randint(1, MOST_GROUPS - 1))
    yield "cut: after six groups too long", going_on(rng, MOST_GROUPS)


def aimed(rng: Random, basin: Basin) -> Iterator[Case]:
    """Damage to one number of each name."""
    row = list(numbers(basin))
    parts = [encode(number.value) for number in row]
    for name in dict.fromkeys(number.name for number in row):
        place = rng.choice([i for i, number in enumerate(row) if number.name == name])
        before, after = b"".join(parts[:place]), b"".join(parts[place + 1 :])
        for kind, new in wrong_numbers(rng, row[place]):
            yield f"{kind}, {name}", before + new + after
        for kind, new in endings(rng, row[place]):
            yield f"{kind}, {name}", before + new


def damaged(rng: Random, basin: Basin) -> Iterator[Case]:
    yield from aimed(rng, basin)
    whole = write(basin)
    for _ in range(8):
        at, byte = rng.randrange(len(whole)), bytes([rng.choice((0, 1, 128, 255, rng.randrange(256)))])
        yield "byte: changed", whole[:at] + byte + whole[at + 1 :]
        yield "byte: one bit changed", whole[:at] + bytes([whole[at] ^ 1 << rng.randrange(8)]) + whole[at + 1 :]
        yield "byte: inserted", whole[:at] + byte + whole[at:]
        yield "byte: dropped", whole[:at] + whole[at + 1 :]
        yield "cut: anywhere", whole[:at]
    for tail in (b"\x00", b"\x80", b"\x80\x00", rng.randbytes(1), rng.randbytes(30), whole):
        yield "tail: appended", whole + tail


def garbage(rng: Random) -> Iterator[Case]:
    yield "garbage: any bytes", rng.randbytes(rng.randint(0, 40))
    few = bytes(rng.choices((0, 1, 2, 128), (100, 30, 1, 1), k=rng.randint(0, 300)))
    yield "garbage: few bytes under a head", bytes([rng.randint(0, MOST_DEPTH), 1, 0]) + few


def long_files(rng: Random) -> Iterator[Case]:
    yield "long: empty", b""
    most, small = write(fullest(MOST_DEPTH)), write(random_basin(rng, 2))  # none is longer than most
    yield "long: largest", most
    yield "long: largest less one", most[:-1]
    for whole in (most, small):
        for length in (len(whole) + 1, LOOKED_AT - 1, LOOKED_AT, LOOKED_AT + 1, 3 * LOOKED_AT):
            yield "long: sound and a tail", whole + rng.randbytes(length - len(whole))
    for byte in (b"\x00", b"\x01", b"\x80", b"\xff"):
        yield "long: one byte over and over", byte * (LOOKED_AT + 1)
    yield "long: any bytes", rng.randbytes(2 * LOOKED_AT)


def cases(seed: int) -> Iterator[Case]:
    """Without end: long and full files, then round after round of all kinds."""
    rng = Random(seed)
    yield from long_files(rng)
    for sign in (1, -1):
        for level in range(MOST_DEPTH + 1):
            yield f"sound: full, level {level}", write(fullest(level, sign))
        yield from aimed(rng, fullest(0, sign))  # where a number has the most bits
    for depth in cycle(DEPTHS):
        small = depth <= 3
        for _ in range(24 if small else 8):
            yield f"sound: L {depth}", write(basin := random_basin(rng, depth))
        harm = list(damaged(rng, basin))
        yield from harm if small else rng.sample(harm, 40)
        for _ in range(8):
            yield from garbage(rng)
        for corner in (False, True) if depth >= 3 else ():  # a smaller basin is always balanced
            for _ in range(8 if small else 4):
                basin = random_basin(rng, depth, unbalanced_levels(rng, 1 << depth, corner))
                yield f"unbalanced: by {'a corner' if corner else 'an edge'}, L {depth}", write(basin)
            # What is wrong with the bytes is said before that.
            for kind, data in rng.sample(list(damaged(rng, basin)), 8):
                yield f"unbalanced: and {kind}", data
