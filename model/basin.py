"""A model of the basin's file and of the program `sheet`, written from docs/BASIN.md alone."""

from __future__ import annotations

from collections.abc import Iterator
from dataclasses import dataclass
from functools import cache
from typing import NamedTuple

MOST_DEPTH = 6
MOST_WIDTH = 1_000
MOST_LOOSE = 1_000_000
MOST_HEIGHT = 30_000  # of a bed, and of the water for each square of a leaf
MOST_SPEED = 10_000
MOST_GROUPS = 6
LOOKED_AT = 72_000  # bytes of its input that the program reads
NUMBERS, TREE, FILE = 1, 2, 3  # the layers of a file fault
EDGES = ((1, 0), (-1, 0), (0, 1), (0, -1))
EDGES_AND_CORNERS = EDGES + ((1, 1), (1, -1), (-1, 1), (-1, -1))


@dataclass(frozen=True)
class Head:
    depth: int  # L, the number of levels
    width: int  # d, in metres
    loose: int

    @property
    def n(self) -> int:
        return 1 << self.depth


@dataclass(frozen=True)
class Leaf:
    """The record of a leaf: V, X and Y."""

    water: int
    east: int
    north: int


@dataclass
class Basin:
    head: Head
    levels: list[int]
    beds: list[int]
    leaves: list[Leaf]


@dataclass(eq=False)
class FileFault(Exception):
    number: int
    byte: int
    layer: int


class Node(NamedTuple):
    """A node of the tree, by its south-west corner and its side."""

    x: int
    y: int
    side: int

    def quarters(self) -> list[Node]:
        """South-west, south-east, north-west, north-east."""
        half = self.side // 2
        return [Node(x, y, half) for y in (self.y, self.y + half) for x in (self.x, self.x + half)]

    def squares(self, n: int) -> list[int]:
        """The table entries of the node's squares, the corner's first."""
        return [y * n + x for y in range(self.y, self.y + self.side) for x in range(self.x, self.x + self.side)]


@cache
def touching(n: int, offsets: tuple[tuple[int, int], ...]) -> list[tuple[int, int]]:
    """The entries of each square and of each of its neighbours inside the basin."""
    squares = [(x, y) for y in range(n) for x in range(n)]
    pairs = [(x, y, x + dx, y + dy) for x, y in squares for dx, dy in offsets]
    return [(y * n + x, v * n + u) for x, y, u, v in pairs if 0 <= u < n and 0 <= v < n]


def balanced(n: int, levels: list[int], offsets: tuple[tuple[int, int], ...] = EDGES_AND_CORNERS) -> bool:
    return all(abs(levels[one] - levels[other]) <= 1 for one, other in touching(n, offsets))


@dataclass
class Reader:
    data: bytes
    at: int = 0

    def number(self) -> int:
        """The next number, not yet held to any range."""
        begin, value = self.at, 0
        for group in range(MOST_GROUPS):
            if self.at == len(self.data):
                raise FileFault(12, begin, NUMBERS)
            byte = self.data[self.at]
            self.at += 1
            value |= (byte & 127) << 7 * group
            if byte < 128:
                if byte == 0 and group > 0:
                    raise FileFault(13, begin, NUMBERS)
                return value
        raise FileFault(13, begin, NUMBERS)

    def take(self, low: int, high: int, layer: int, signed: bool = False) -> int:
        """The next number, refused where it begins unless it is from low to high."""
        begin, value = self.at, self.number()
        if signed:
            value = -((value + 1) // 2) if value % 2 else value // 2
        if not low <= value <= high:
            raise FileFault(14, begin, layer)
        return value


def read_node(source: Reader, basin: Basin, node: Node, level: int) -> None:
    most_mark = 1 if level < basin.head.depth else 0
    if source.take(0, most_mark, TREE) == 1:
        for quarter in node.quarters():
            read_node(source, basin, quarter, level + 1)
        return
    water = source.take(0, MOST_HEIGHT * node.side**2, TREE)
    fastest = MOST_SPEED * water
    east = source.take(-fastest, fastest, TREE, signed=True)
    north = source.take(-fastest, fastest, TREE, signed=True)
    for square in node.squares(basin.head.n):
        basin.levels[square] = level
        basin.leaves[square] = Leaf(water, east, north)


def read(data: bytes) -> Basin:
    """The basin that the bytes hold. Raises a FileFault where they are refused."""
    source = Reader(data)
    depth = source.take(0, MOST_DEPTH, FILE)
    width = source.take(1, MOST_WIDTH, FILE)
    head = Head(depth, width, source.take(0, MOST_LOOSE, FILE))
    size = head.n**2
    basin = Basin(head, [0] * size, [0] * size, [Leaf(0, 0, 0)] * size)
    read_node(source, basin, Node(0, 0, head.n), 0)
    basin.beds = [source.take(0, MOST_HEIGHT, FILE) for _ in range(size)]
    if source.at < len(data):
        raise FileFault(15, source.at, FILE)
    if not balanced(head.n, basin.levels):
        raise FileFault(2, len(data), TREE)
    return basin


class Number(NamedTuple):
    """One number of a file, as it stands there, and the most that may stand there."""

    name: str
    value: int
    most: int


def encode(value: int) -> bytes:
    groups = bytearray()
    while value > 127:
        groups.append(128 | value & 127)
        value >>= 7
    return bytes([*groups, value])


def unsigned(value: int) -> int:
    """The number that a signed number is written as."""
    return 2 * value if value >= 0 else -2 * value - 1


def nodes(basin: Basin) -> Iterator[tuple[Node, bool]]:
    """Every node in the order of the file, and whether it is a leaf."""

    def below(node: Node, level: int) -> Iterator[tuple[Node, bool]]:
        is_leaf = basin.levels[node.y * basin.head.n + node.x] == level
        yield node, is_leaf
        for quarter in () if is_leaf else node.quarters():
            yield from below(quarter, level + 1)

    return below(Node(0, 0, basin.head.n), 0)


def numbers(basin: Basin) -> Iterator[Number]:
    """What the file holds, number by number."""
    head = basin.head
    yield Number("L", head.depth, MOST_DEPTH)
    yield Number("d", head.width, MOST_WIDTH)
    yield Number("loose", head.loose, MOST_LOOSE)
    for node, is_leaf in nodes(basin):
        yield Number("mark", 0 if is_leaf else 1, 1 if node.side > 1 else 0)
        if is_leaf:
            leaf = basin.leaves[node.y * head.n + node.x]
            yield Number("V", leaf.water, MOST_HEIGHT * node.side**2)
            yield Number("X", unsigned(leaf.east), unsigned(MOST_SPEED * leaf.water))
            yield Number("Y", unsigned(leaf.north), unsigned(MOST_SPEED * leaf.water))
    for bed in basin.beds:
        yield Number("bed", bed, MOST_HEIGHT)


def write(basin: Basin) -> bytes:
    return b"".join(encode(number.value) for number in numbers(basin))


def sheet(data: bytes) -> str:
    """What the program prints for this input."""
    try:
        basin = read(data[:LOOKED_AT])
    except FileFault as fault:
        return f"refused {fault.number} {fault.byte} {fault.layer}\n"
    lines = [f"{basin.head.n} {basin.head.width} {basin.head.loose}\n"]
    for node, is_leaf in nodes(basin):
        if is_leaf:
            squares = node.squares(basin.head.n)
            leaf = basin.leaves[squares[0]]
            surface = (leaf.water + sum(basin.beds[square] for square in squares)) // len(squares)
            lines.append(f"{node.x} {node.y} {node.side} {surface} {leaf.water} {leaf.east} {leaf.north}\n")
    return "".join(lines)
