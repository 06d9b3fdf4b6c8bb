"""The program `fluxes`: prints what the flow rules answer. And lines for it, made from a seed.

The program's part is written from docs/BASIN.md alone.
"""

from __future__ import annotations

from math import isqrt
from random import Random

from flow import GRAVITY, MOST_DEPTH_OF_SIDE, MOST_SPEED_OF_SIDE, RULES, Side
from replay import Stop, lines_of

WORD = 1 << 63  # numbers are from −WORD to WORD − 1
BAD_LINES = (
    "central", "pond 1 0 0 1 0", "pond 1 0 0 1 0 0 0", "Pond 1 0 0 1 0 0", "weir 1 0 0 1 0 0", "1 0 0 1 0 0", "pond  1 0 0 1 0 0",
    " pond 1 0 0 1 0 0", "pond 1 0 0 1 0 0 ", " ", "\t", "\r\r", "pond 1 0 0 1 0\r0", "pond 1 0 0 1 0 x", "pond 1 0 0 1 0 1.0",
    "pond 1 0 0 1 0 +1", "pond 1 0 0 1 0 -", "pond 1 0 0 1 0 --1", "pond 1 0 0 1 0 1-", f"pond {WORD} 0 0 1 0 0",
    f"pond 1 {-WORD - 1} 0 1 0 0", f"pond 1 0 0 1 0 {10 * WORD}",
)  # fmt: skip


def number(word: str) -> int:
    digits = word.removeprefix("-")
    if not digits or any(character not in "0123456789" for character in digits) or not -WORD <= int(word) < WORD:
        raise Stop("no number")
    return int(word)


def answer(line: str) -> str | None:
    """What is printed for the line; None for one that is passed over. Raises Stop."""
    if line == "" or line.startswith("#"):
        return None
    name, *words = line.split(" ")
    if name not in RULES or len(words) != 6:
        raise Stop("no rule and two sides")
    six = [number(word) for word in words]
    one, two = Side(*six[:3]), Side(*six[3:])
    if not one.exists() or not two.exists():
        return "no side"
    return " ".join(map(str, RULES[name](one, two)))


def fluxes(text: str) -> tuple[str, int | None]:
    """What the program prints, and the number of the line that it stops at with status 1."""
    printed = ""
    for count, line in enumerate(lines_of(text), 1):
        try:
            answered = answer(line)
        except Stop:
            return printed, count
        printed += "" if answered is None else f"{answered}\n"
    return printed, None


def random_speed(rng: Random, depth: int) -> int:
    """Often at an edge, or that of the waves."""
    wave = min(MOST_SPEED_OF_SIDE, isqrt(GRAVITY * depth))
    size = rng.choice((0, 1, wave, max(0, wave - 1), MOST_SPEED_OF_SIDE, rng.randint(0, 99), *[rng.randint(0, MOST_SPEED_OF_SIDE)] * 3))
    return rng.choice((size, -size))


def random_side(rng: Random) -> Side:
    """One that exists."""
    depth = rng.choice((0, 1, 2, MOST_DEPTH_OF_SIDE - 1, MOST_DEPTH_OF_SIDE, rng.randint(0, 99), *[rng.randint(0, MOST_DEPTH_OF_SIDE)] * 4))
    return Side(depth, random_speed(rng, depth), random_speed(rng, depth)) if depth else Side(0, 0, 0)


def no_side(rng: Random) -> Side:
    """One that does not exist, by one of its numbers."""
    good = random_side(rng)
    while good.h == 0:
        good = random_side(rng)
    far = rng.choice((-WORD, WORD - 1, 1 << 32, -(1 << 32), 65_536 + rng.randint(0, 9_999), rng.randrange(-WORD, -WORD // 2)))
    depth = rng.choice((-1, MOST_DEPTH_OF_SIDE + 1, far))
    speed = rng.choice((MOST_SPEED_OF_SIDE + 1, -MOST_SPEED_OF_SIDE - 1, far))
    small = rng.choice((1, -1, MOST_SPEED_OF_SIDE))
    return rng.choice((good._replace(h=depth), good._replace(u=speed), good._replace(v=speed), Side(0, small, 0), Side(0, 0, small)))


def random_sides(rng: Random) -> tuple[Side, Side]:
    one, two = random_side(rng), random_side(rng)
    kind = rng.choice(("any", "any", "any", "any", "equal", "wall", "near", "still", "none"))
    if kind == "equal":
        two = one
    if kind == "wall":
        two = one.beyond_wall()
    if kind == "near":
        two = one._replace(h=min(MOST_DEPTH_OF_SIDE, one.h + 1)) if one.h else two
    if kind == "still":
        one, two = Side(one.h, 0, 0), Side(two.h, 0, 0)
    if kind == "none":
        one, two = rng.choice(((no_side(rng), two), (one, no_side(rng)), (no_side(rng), no_side(rng))))
    return one, two


def lines(seed: int, count: int) -> list[str]:
    """So many pairs of sides, each for both rules, and some lines to pass over."""
    rng = Random(seed)
    made = ["# sides", "", "\r", "pond 1 -0 0 1 0 -00\r", "central 0001 0 -07 1 0 0"]
    for _ in range(count):
        one, two = random_sides(rng)
        made += [" ".join(map(str, (name, *one, *two))) for name in RULES]
    return made
