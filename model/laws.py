"""What holds of the model's own numbers whatever a log does: water is conserved, basins stay valid, a refused call changes nothing, and a
flow rule keeps its laws."""

from __future__ import annotations

from dataclasses import dataclass

import leaves
from flow import PRESSURE, RULES, Side
from replay import Replay, Reply

NEW_BASIN = ("read", "load", "close")
FLOW_CAPS = {"central": 1_200_000_000, "pond": 514_650_000}
PUSH_CAPS = {"central": 25_000_000_000_000, "pond": 4_414_500_000_000}


class Broken(Exception):
    """A law that does not hold."""


@dataclass
class Books:
    """Watches a log. The basin's total, with what was drawn and less what was poured, stays what it was when the basin came."""

    came: int = 0
    drawn: int = 0
    poured: int = 0
    before: tuple[object, ...] | None = None

    def watch(self, line: str, state: Replay, reply: Reply) -> None:
        name, *words = line.split(" ")
        basin, is_granted = state.current, reply.text.startswith("ok")
        now = basin and leaves.as_is(basin)
        if not is_granted and now != self.before:
            raise Broken(f"a refused call changed the basin: {line}")
        self.before = now
        if basin is None:
            return
        if is_granted and name in NEW_BASIN:
            self.came, self.drawn, self.poured = leaves.total(basin), 0, 0
        if is_granted and name == "draw":
            self.drawn += int(words[2])
        if is_granted and name == "pour":
            self.poured += int(words[2])
        if leaves.total(basin) + self.drawn - self.poured != self.came:
            raise Broken(f"water is not conserved: {line}")
        if not leaves.valid(basin):
            raise Broken(f"the basin is not valid any more: {line}")


def keeps_laws(line: str) -> bool:
    """Whether the rule keeps its four laws at the sides of a line for the program `fluxes`."""
    name, *words = line.split(" ")
    if name not in RULES:
        return True
    six = [int(word) for word in words]
    one, two = Side(*six[:3]), Side(*six[3:])
    return not (one.exists() and two.exists()) or keeps_laws_at(name, one, two)


def keeps_laws_at(name: str, one: Side, two: Side) -> bool:
    rule = RULES[name]
    flow, push, drift = rule(one, two)
    rest = rule(still := Side(one.h, 0, 0), still) == (0, PRESSURE * one.h * one.h, 0)
    mirror = rule(two.beyond_wall(), one.beyond_wall()) == (-flow, push, -drift)
    along = rule(one._replace(v=-one.v), two._replace(v=-two.v)) == (flow, push, -drift)
    caps = abs(flow) <= FLOW_CAPS[name] and max(abs(push), abs(drift)) <= PUSH_CAPS[name]
    return rest and mirror and along and caps
