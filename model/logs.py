"""Logs for the program `replay`, made from a seed.

The maker performs each line in the model as it makes it. So it can aim: of a few lines for the same call it mostly takes the one whose
outcome was met least so far.
"""

from __future__ import annotations

from collections import Counter
from collections.abc import Callable, Iterator
from itertools import islice
from math import isqrt
from random import Random
from typing import NamedTuple

import basins
import files
import replay
from basin import MOST_DEPTH, MOST_HEIGHT, MOST_WIDTH, Basin, write
from calls import MOST_AMOUNT
from flow import GRAVITY, RULES
from leaves import all_leaves, leaf_at, most_water, quotient, record
from replay import FOLDER, Replay, Reply, Stop
from step import MOST_TIME

BAD_LINES = (
    "pour", "open", "open 1", "open 1 2 3", "open  1 2", "open 1 2 ", " total", "close now", "total 1", "look 1", "look 1 x",
    "look -1 0", "look +1 0", "look 1.0 0", "look 18446744073709551616 0", "lay 0 0", "read 0", "read zz", "read 00 00",
    "load", f"load {FOLDER}nothing-here", "save", f"save {FOLDER}no/such/folder", "OPEN 1 1", "open one 1", "look 0 \u0661",
)  # fmt: skip
HUGE = 1 << 64  # the least number that is none
BAD_NUMBERS = ("", "-1", "+1", "1.0", "0x1", "a", "1a", "１", str(HUGE), str(HUGE * 10), "1,000")
RAW_BYTES = False  # whether lines may have bytes that are no UTF-8, which the program does not yet pass over or name
LOGS_TO_A_SHELF = 100  # that read files of the same row
MANY, FEW = 4, 2  # lines to choose from, in a small and in a large basin


class Case(NamedTuple):
    kind: str
    log: str
    files: dict[str, bytes]


def copied(state: Replay) -> Replay:
    """A state that may be changed for a trial."""
    basin, draft = state.current, state.laid_out
    return Replay(
        dict(state.files),
        basin and Basin(basin.head, list(basin.levels), list(basin.beds), list(basin.leaves)),
        draft and type(draft)(draft.depth, draft.width, list(draft.beds)),
    )


def files_to_read(rng: Random) -> Iterator[bytes]:
    """Of valid basins, of damaged ones and of unbalanced ones."""
    for _ in range(40):
        yield write(basins.random_basin(rng, basins.depth(rng)))
        yield rng.choice(list(files.damaged(rng, basins.random_basin(rng, rng.randint(0, 2)))))[1]
    for by_corner in (False, True) * 4:
        yield write(files.random_basin(rng, 3, files.unbalanced_levels(rng, 8, by_corner)))


class Maker:
    """Makes one log, line by line."""

    def __init__(self, rng: Random, shelf: list[bytes], met: Counter[str]):
        self.rng, self.shelf, self.met = rng, shelf, met
        self.files = {f"{FOLDER}{name}": rng.choice(shelf) for name in "abc"}
        self.state = Replay(dict(self.files))
        self.lines: list[str] = []
        self.aims: dict[str, tuple[int, Callable[[], str]]] = {
            "look": (3, lambda: f"look {self.place()}"),
            "total": (2, lambda: "total"),
            "pour": (5, self.pour),
            "draw": (5, self.draw),
            "settle": (4, lambda: f"settle {self.place()}"),
            "split": (9, lambda: f"split {self.place()}"),
            "merge": (9, lambda: f"merge {self.place()}"),
            "turn": (2, lambda: f"turn {rng.choice((*range(8), *range(8), 8, HUGE - 1))}"),
            "write": (1, lambda: "write"),
            "save": (1, lambda: f"save {FOLDER}{rng.choice('abcd')}"),
            "load": (1, lambda: f"load {FOLDER}{rng.choice('abc')}"),
            "read": (2, self.read),
            "open": (1, self.open),
            "lay": (2, self.lay),
            "close": (1, lambda: "close"),
            "step": (8 if replay.STEPS else 0, self.step),
        }

    # What stands in the lines

    def far(self) -> int:
        """A number for one that is to be out of its range."""
        return self.rng.choice((HUGE - 1, 1 << 63, 1 << 32, 1 << 16, self.rng.randrange(HUGE)))

    def written(self, number: int) -> str:
        """Zeros may stand before a number."""
        return "0" * (self.rng.choice((1, 2, 30)) if self.rng.random() < 0.01 else 0) + str(number)

    def place(self, n: int | None = None) -> str:
        """Of a square, or of none."""
        rng, n = self.rng, n or self.state.basin.head.n
        x, y = rng.randrange(n), rng.randrange(n)
        if rng.random() < 0.07:
            x, y = rng.choice(((n, y), (x, n), (n, n), (self.far(), y), (x, self.far())))
        return f"{self.written(x)} {self.written(y)}"

    def amount(self, place: str, of_leaf: Callable[[int, int], int]) -> int:
        """For a pour or a draw; of_leaf gives the edge from what the leaf holds and the most that it may hold."""
        rng, basin = self.rng, self.state.basin
        x, y = map(int, place.split())
        edge = 1
        if x < basin.head.n and y < basin.head.n:
            leaf = leaf_at(basin, x, y)
            edge = of_leaf(record(basin, leaf).water, most_water(leaf))
        within = rng.randint(1, max(1, edge))
        near = max(0, edge - rng.randint(0, 5))
        return rng.choice((1, edge, edge, edge + 1, near, within, within, 0, MOST_AMOUNT, MOST_AMOUNT + 1, self.far()))

    def pour(self) -> str:
        place = self.place()
        return f"pour {place} {self.written(self.amount(place, lambda held, most: most - held))}"

    def draw(self) -> str:
        place = self.place()
        return f"draw {place} {self.written(self.amount(place, lambda held, most: held))}"

    def read(self) -> str:
        digits = self.rng.choice(self.shelf).hex()
        return f"read {self.rng.choice((digits, digits, digits.upper()))}".rstrip()

    def open(self) -> str:
        rng = self.rng
        depth = rng.choice((0, 1, 2, 3, rng.randint(0, MOST_DEPTH), MOST_DEPTH + 1, self.far()))
        width = rng.choice((1, MOST_WIDTH, *[rng.randint(1, MOST_WIDTH)] * 2, 0, MOST_WIDTH + 1, self.far()))
        return f"open {self.written(depth)} {self.written(width)}"

    def lay(self) -> str:
        rng = self.rng
        bed = rng.choice((0, MOST_HEIGHT, rng.randint(0, MOST_HEIGHT), rng.randint(0, 9), MOST_HEIGHT + 1, self.far()))
        return f"lay {self.place(self.state.draft.n)} {self.written(bed)}"

    def longest(self) -> int:
        """The longest step that refusal 9 lets pass, by its words."""
        basin, longest = self.state.basin, MOST_TIME
        for leaf in all_leaves(basin):
            if water := record(basin, leaf).water:
                speeds = (record(basin, leaf).east, record(basin, leaf).north)
                fastest = max(abs(quotient(speed, water)) for speed in speeds) + isqrt(GRAVITY * (water // leaf.side**2))
                longest = min(longest, 1_000_000 * basin.head.width * leaf.side // (4 * fastest) if fastest else longest)
        return longest

    def step(self) -> str:
        rng, longest = self.rng, self.longest()
        within = rng.randint(1, max(1, longest))
        time = rng.choice((longest, longest, longest + 1, within, within, 1, 0, MOST_TIME, MOST_TIME + 1, self.far()))
        return f"step {self.written(time)} {rng.choice(list(RULES))}"

    # Making

    def is_ready(self, call: str) -> bool:
        """Whether there is what the call works on."""
        if call in ("lay", "close"):
            return self.state.laid_out is not None
        return call in ("read", "load", "open") or self.state.current is not None

    def say(self, line: str) -> Reply | None:
        self.lines.append(line)
        reply = self.state.perform(line)
        if reply is not None:
            self.met[reply.outcome] += 1
        return reply

    def trial(self, line: str) -> int:
        """How often the line's outcome was met."""
        reply = copied(self.state).perform(line)
        return 0 if reply is None else self.met[reply.outcome]

    def add_call(self) -> None:
        ready = [call for call in self.aims if self.is_ready(call)]
        call = self.rng.choices(ready, [self.aims[call][0] for call in ready])[0]
        is_large = self.state.current is not None and self.state.current.head.depth > 3
        aim = self.aims[call][1]
        if call in ("total", "write", "close", "save") or self.rng.random() < 0.3:
            self.say(aim())
        else:
            self.say(min((aim() for _ in range(FEW if is_large else MANY)), key=self.trial))

    def begin(self) -> None:
        """Most logs begin with a basin."""
        rng = self.rng
        way = rng.choices(("read", "load", "draft", "anyhow"), (16, 1, 2, 1))[0]
        if way == "read":
            self.say(f"read {write(basins.random_basin(rng, basins.depth(rng))).hex()}")
        elif way == "load":
            self.say(f"load {FOLDER}a")
        elif way == "draft":
            self.say(f"open {rng.randint(0, 3)} {rng.randint(1, MOST_WIDTH)}")
            for _ in range(rng.randint(0, 6)):
                self.say(self.lay())
            self.say("close")

    def no_call(self) -> str:
        """A line with the wrong words, or with something else on it."""
        good = self.rng.choice(("look 0 0", "total", "pour 0 0 1", "turn 1", "open 1 1", "split 0 0", "write", "lay 0 0 1"))
        word = good.split(" ")[0]
        return self.rng.choice((
            f"{good} ", f" {good}", f"{good} 0", f"{good} x", good.upper(), f"{good}#", f"{good}  ", f"\t{good}", f"{good}\t",
            f"{good}{chr(0)}", f"{word}s", word[1:], "look 0", "look", "pour 0 0", "pour", "turn", "split 1", "merge 0 0 0", "settle",
            "open 1", "lay 0 0", "draw 1 1", "close now", "load", "save", "step", "step 1", "step 1 slow", "step 1 central",
            "read 00 00", f"load {FOLDER}a x", "turned 0 0 0", ",", " ", "  ", "\t", f"{good}\r\r", "\r\r", "ä",
            *((f"{good}\udcff", "\udcff") if RAW_BYTES else ()),
        ))  # fmt: skip

    def no_number(self) -> str:
        word = self.rng.choice(BAD_NUMBERS)
        return self.rng.choice(("look 0 {}", "look {} 0", "turn {}", "open {} 1", "pour 0 0 {}", "lay {} 0 0", "merge {} 0")).format(word)

    def bad_line(self) -> str:
        """A line that stops the program whatever came before."""
        digits = ("read 0", "read 001", "read 0g", "read g0", "read -1", "read 0x00", "read 00:00", "read ０0")
        places = (f"load {FOLDER}none", f"load {FOLDER}none/a", f"save {FOLDER}none/a", f"save {FOLDER}a/b")
        return self.rng.choice((self.no_call(), self.no_call(), self.no_number(), self.rng.choice(digits), self.rng.choice(places)))

    def early_line(self) -> str:
        """A call for which there is no basin, or no draft, yet."""
        if self.state.current is not None:
            return self.rng.choice(("lay 0 0 0", "close"))
        placed = ("look 0 0", "pour 0 0 1", "draw 0 0 1", "settle 0 0", "split 0 0", "merge 0 0")
        return self.rng.choice((*placed, "total", "turn 8", "write", f"save {FOLDER}d"))

    def add_stop(self) -> None:
        """A line that stops the program, and more lines that it must not perform."""
        while True:
            line = self.early_line() if self.rng.random() < 0.25 else self.bad_line()
            try:
                copied(self.state).perform(line)
            except Stop as stop:
                self.met[f"stopped {stop}"] += 1
                self.lines += [line, "read 00", f"save {FOLDER}z", "total", "x"]
                return

    def add_passed_over(self) -> None:
        self.lines.append(self.rng.choice(("", "#", "# total", "#x", "# ä", *(("# \udcff",) if RAW_BYTES else ()))))

    def make(self, length: int) -> Case:
        rng = self.rng
        stops = rng.random() < 0.12
        if not stops or rng.random() < 0.8:
            self.begin()
        for _ in range(rng.randint(0, 6) if stops else length):
            self.add_call()
            if rng.random() < 0.03:
                self.add_passed_over()
        if self.state.current is not None:
            self.say("write")
        if stops:
            self.add_stop()
        ending = rng.choice(("\n", "\n", "\n", "\n", "\r\n"))
        last = "" if rng.random() < 0.05 else ending
        return Case("stopped" if stops else "whole", ending.join(self.lines) + last, self.files)


def logs(seed: int) -> Iterator[Case]:
    """Without end."""
    rng, met = Random(seed), Counter[str]()
    yield Case("empty", "", {})
    yield Case("nothing to do", "# nothing\n\n#", {})
    yield Case("largest", "\n".join(f"read {write(basin).hex()}\nwrite\ntotal\nlook 63 63" for basin in (files.fullest(6), files.fullest(0, -1))), {})
    for bad in BAD_LINES:
        yield Case("bad", "\n".join(("open 1 25", "lay 0 0 7", "close", "look 0 0", bad, "total")) + "\n", {})
    while True:
        shelf = list(files_to_read(rng))
        for _ in range(LOGS_TO_A_SHELF):
            yield Maker(rng, shelf, met).make(rng.randint(3, 24))


def some_logs(seed: int, count: int) -> Iterator[Case]:
    return islice(logs(seed), count)
