"""The flow rules: what passes across a face between two sides of water, and what that comes to in a step.

Written from docs/BASIN.md alone.
"""

from __future__ import annotations

from collections.abc import Callable
from math import isqrt
from typing import NamedTuple

from leaves import quotient

MOST_DEPTH_OF_SIDE = 30_000
MOST_SPEED_OF_SIDE = 10_000
GRAVITY = 9_810
PRESSURE = 4_905


class Side(NamedTuple):
    h: int
    u: int
    v: int

    def exists(self) -> bool:
        speeds = (self.u, self.v)
        in_range = 0 <= self.h <= MOST_DEPTH_OF_SIDE and all(abs(speed) <= MOST_SPEED_OF_SIDE for speed in speeds)
        return in_range and (self.h > 0 or speeds == (0, 0))

    def beyond_wall(self) -> Side:
        """The same water with its u turned round."""
        return Side(self.h, -self.u, self.v)


class Flux(NamedTuple):
    flow: int
    push: int
    drift: int


Rule = Callable[[Side, Side], Flux]


def pressure(side: Side) -> int:
    return PRESSURE * side.h * side.h


def pond(one: Side, two: Side) -> Flux:
    """By the depths alone."""
    flow = max(one.h, two.h) * isqrt(GRAVITY * abs(one.h - two.h))
    return Flux(flow if one.h > two.h else -flow, quotient(pressure(one) + pressure(two), 2), 0)


def central(one: Side, two: Side) -> Flux:
    """By the waves of both sides."""
    c1, c2 = isqrt(GRAVITY * one.h), isqrt(GRAVITY * two.h)
    a = max(0, one.u + c1, two.u + c2)
    b = min(0, one.u - c1, two.u - c2)
    if a == b:
        return Flux(0, 0, 0)

    def answer(f: Callable[[Side], int], u: Callable[[Side], int]) -> int:
        return quotient(a * f(one) - b * f(two) + a * b * (u(two) - u(one)), a - b)

    return Flux(
        flow=answer(lambda side: side.h * side.u, lambda side: side.h),
        push=answer(lambda side: side.h * side.u * side.u + pressure(side), lambda side: side.h * side.u),
        drift=answer(lambda side: side.h * side.u * side.v, lambda side: side.h * side.v),
    )


RULES: dict[str, Rule] = {"central": central, "pond": pond}


class Crossing(NamedTuple):
    """The four numbers of a face in a step."""

    wish: int  # from side 1 to side 2
    fall: int  # of side 1's discharge across the face
    rise: int  # of side 2's
    drift: int  # fall on side 1 and rise on side 2 of the discharge along the face


def crossing(rule: Rule, one: Side, two: Side, length: int, time: int, width: int) -> Crossing:
    """For a face of that many squares, a step of that many milliseconds and squares of that many metres."""
    flux = rule(one, two)

    def in_step(number: int) -> int:
        return quotient(number * length * time, 1_000_000 * width)

    return Crossing(
        in_step(flux.flow), in_step(flux.push - pressure(one)), in_step(flux.push - pressure(two)), in_step(flux.drift)
    )
