"""The program `replay`: performs a log of calls, one a line.

Written from docs/BASIN.md alone. The files that a log loads and saves are kept in a dictionary; a path that is no key of it cannot be
opened, and one outside its folder cannot be written.
"""

from __future__ import annotations

from collections.abc import Callable
from dataclasses import dataclass, field
from typing import NamedTuple

import calls
import turns
from basin import Basin, FileFault, read, write
from calls import Draft, Refused
from flow import RULES, Rule
from step import step

STEPS = True

FOLDER = "DIR/"  # what the paths of files begin with in the model; the comparison puts a folder of its own there


class Stop(Exception):
    """The line stops the program with status 1."""


class Reply(NamedTuple):
    """What the program prints for a call, and what is counted: the call with `ok` or its refusal."""

    text: str
    outcome: str


def number(word: str) -> int:
    if not word or any(character not in "0123456789" for character in word) or int(word) >= 1 << 64:
        raise Stop("no number")
    return int(word)


def hexadecimal(word: str) -> bytes:
    if len(word) % 2 or any(character not in "0123456789abcdefABCDEF" for character in word):
        raise Stop("no hexadecimal digits")
    return bytes.fromhex(word)


def path(word: str) -> str:
    if not word:
        raise Stop("no path")
    return word


def rule(word: str) -> Rule:
    if word not in RULES:
        raise Stop("no rule")
    return RULES[word]


@dataclass
class Replay:
    """The state between the lines of a log."""

    files: dict[str, bytes] = field(default_factory=dict)
    current: Basin | None = None
    laid_out: Draft | None = None

    @property
    def basin(self) -> Basin:
        if self.current is None:
            raise Stop("no basin yet")
        return self.current

    @property
    def draft(self) -> Draft:
        if self.laid_out is None:
            raise Stop("no draft")
        return self.laid_out

    def perform(self, line: str) -> Reply | None:
        """None for a line that is passed over. Raises Stop."""
        if line == "" or line.startswith("#"):
            return None
        name, *words = line.split(" ")
        if name not in CALLS or (name == "step" and not STEPS):
            raise Stop("no call")
        kinds, call = CALLS[name]
        if name == "read" and not words:
            words = [""]
        if len(words) != len(kinds):
            raise Stop("no call")
        arguments = [kind(word) for kind, word in zip(kinds, words)]
        try:
            answers = call(self, *arguments)
        except Refused as refusal:
            return Reply(f"refused {refusal.number}", f"{name} {refusal.number} {refusal.why}".rstrip())
        except FileFault as fault:
            return Reply(f"refused {fault.number} {fault.byte} {fault.layer}", f"{name} {fault.number}/{fault.layer}")
        return Reply(" ".join(["ok", *map(str, answers)]), f"{name} ok")

    def open(self, depth: int, width: int) -> tuple[()]:
        self.laid_out = calls.open_draft(depth, width)
        return ()

    def lay(self, x: int, y: int, bed: int) -> tuple[()]:
        calls.lay(self.draft, x, y, bed)
        return ()

    def close(self) -> tuple[()]:
        self.current, self.laid_out = calls.close(self.draft), None
        return ()

    def read(self, data: bytes) -> tuple[()]:
        self.current = read(data)
        return ()

    def load(self, name: str) -> tuple[()]:
        if name not in self.files:
            raise Stop("cannot be opened")
        return self.read(self.files[name])

    def save(self, name: str) -> tuple[int]:
        data = write(self.basin)
        if not name.startswith(FOLDER) or "/" in name.removeprefix(FOLDER):
            raise Stop("cannot be written")
        self.files[name] = data
        return (len(data),)

    def turn(self, turn: int) -> tuple[()]:
        self.current = turns.turned(self.basin, turn)
        return ()


Kinds = tuple[Callable[[str], object], ...]

CALLS: dict[str, tuple[Kinds, Callable[..., tuple[object, ...]]]] = {
    "open": ((number, number), Replay.open),
    "lay": ((number, number, number), Replay.lay),
    "close": ((), Replay.close),
    "read": ((hexadecimal,), Replay.read),
    "load": ((path,), Replay.load),
    "write": ((), lambda state: (write(state.basin).hex(),)),
    "save": ((path,), Replay.save),
    "look": ((number, number), lambda state, x, y: calls.look(state.basin, x, y)),
    "total": ((), lambda state: (calls.total(state.basin),)),
    "pour": ((number, number, number), lambda state, x, y, amount: (calls.pour(state.basin, x, y, amount),)),
    "draw": ((number, number, number), lambda state, x, y, amount: (calls.draw(state.basin, x, y, amount),)),
    "settle": ((number, number), lambda state, x, y: (calls.settle(state.basin, x, y),)),
    "split": ((number, number), lambda state, x, y: (calls.split(state.basin, x, y),)),
    "merge": ((number, number), lambda state, x, y: (calls.merge(state.basin, x, y),)),
    "turn": ((number,), Replay.turn),
    "step": ((number, rule), lambda state, time, by: (step(state.basin, time, by),)),
}


@dataclass
class Run:
    """What the program does with a log."""

    replies: list[Reply]
    stopped: int | None  # the number of the line that it stops at, with status 1
    why: str  # it stops there
    files: dict[str, bytes]  # as the log leaves them

    @property
    def printed(self) -> str:
        return "".join(f"{reply.text}\n" for reply in self.replies)


def lines_of(text: str) -> list[str]:
    """A carriage return just before a line feed belongs to the line's end. What follows the last line feed is a line too."""
    *ended, last = text.split("\n")
    return [*(line.removesuffix("\r") for line in ended), last]


Watch = Callable[[str, Replay, Reply], None]


def replay(log: str, files: dict[str, bytes] | None = None, watch: Watch = lambda line, state, reply: None) -> Run:
    """Performs the log; after each call `watch` may look at the state that it left."""
    state, replies = Replay(dict(files or {})), []
    for count, line in enumerate(lines_of(log), 1):
        try:
            reply = state.perform(line)
        except Stop as stop:
            return Run(replies, count, str(stop), state.files)
        if reply is not None:
            replies.append(reply)
            watch(line, state, reply)
    return Run(replies, None, "", state.files)
