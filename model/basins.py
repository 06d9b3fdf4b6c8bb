"""Valid basins of many kinds, to begin logs with: lakes that stand, films, full leaves, flat and steep ground, numbers at their edges."""

from __future__ import annotations

from random import Random

from basin import MOST_HEIGHT, MOST_LOOSE, MOST_SPEED, MOST_WIDTH, Basin, Head, Leaf, Node
from files import random_levels
from leaves import DRY, all_leaves, bed_sum, level_at, most_water, put

DEPTHS = (0, 1, 1, 2, 2, 2, 3, 3, 3, 4)  # mostly small ones
LARGE = (5, 6)
GROUNDS = ("flat", "gentle", "steep", "sloping", "cliffs")
WATERS = ("lake", "lake", "film", "full", "any", "dry")


def depth(rng: Random) -> int:
    return rng.choice(LARGE if rng.random() < 0.02 else DEPTHS)


def random_head(rng: Random, levels: int) -> Head:
    width = rng.choice((1, 2, MOST_WIDTH, rng.randint(1, MOST_WIDTH)))
    near_most = MOST_LOOSE - rng.randint(0, 4)
    return Head(levels, width, rng.choice((0, rng.randint(1, 9), near_most, near_most, rng.randint(0, MOST_LOOSE))))


def random_beds(rng: Random, n: int) -> list[int]:
    kind = rng.choice(GROUNDS)
    base = rng.choice((0, MOST_HEIGHT, rng.randint(0, MOST_HEIGHT)))
    east, north = rng.randint(-9, 9), rng.randint(-9, 9)

    def bed(x: int, y: int) -> int:
        height = {
            "flat": base,
            "gentle": base + rng.randint(0, 4),
            "steep": rng.randint(0, MOST_HEIGHT),
            "sloping": base + east * x + north * y,
            "cliffs": rng.choice((0, base, MOST_HEIGHT)),
        }[kind]
        return max(0, min(MOST_HEIGHT, height))

    return [bed(x, y) for y in range(n) for x in range(n)]


def random_water(rng: Random, basin: Basin, leaf: Node, kind: str, height: int) -> int:
    most = most_water(leaf)
    water = {
        "lake": height * leaf.side**2 - bed_sum(basin, leaf),
        "film": rng.randint(0, 9),
        "full": most - rng.choice((0, 0, 1, rng.randint(0, 9), rng.randint(0, most))),
        "any": rng.randint(0, most),
        "dry": 0,
    }[kind]
    return max(0, min(most, water))


def random_discharge(rng: Random, water: int) -> int:
    fastest = MOST_SPEED * water
    small = min(fastest, 9)
    return rng.choice((0, fastest, -fastest, rng.randint(-small, small), rng.randint(-fastest, fastest)))


def random_basin(rng: Random, levels: int) -> Basin:
    head = random_head(rng, levels)
    size = head.n**2
    basin = Basin(head, random_levels(rng, head.n), random_beds(rng, head.n), [DRY] * size)
    kinds, is_still = rng.choices(WATERS, k=rng.randint(1, 3)), rng.random() < 0.3
    height = rng.choice(basin.beds) + rng.choice((1, 5, rng.randint(1, MOST_HEIGHT)))
    for leaf in all_leaves(basin):
        water = random_water(rng, basin, leaf, rng.choice(kinds), height)
        east, north = (0 if is_still else random_discharge(rng, water) for _ in range(2))
        put(basin, leaf, level_at(basin, leaf.x, leaf.y), Leaf(water, east, north))
    return basin


def standing_lake(rng: Random, levels: int) -> Basin:
    """A basin whose water stands: one height for all of it, and dry leaves only where the ground is not below that."""
    while True:
        head = random_head(rng, levels)
        basin = Basin(head, random_levels(rng, head.n), random_beds(rng, head.n), [DRY] * head.n**2)
        height = rng.choice(basin.beds) + rng.choice((0, 1, rng.randint(0, MOST_HEIGHT)))
        waters = {leaf: max(0, height * leaf.side**2 - bed_sum(basin, leaf)) for leaf in all_leaves(basin)}
        if all(water <= most_water(leaf) for leaf, water in waters.items()):
            for leaf, water in waters.items():
                put(basin, leaf, level_at(basin, leaf.x, leaf.y), Leaf(water, 0, 0))
            return basin
