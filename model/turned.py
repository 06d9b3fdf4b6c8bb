"""The same log for a turned basin: its places are turned, and its answers must be those of the first log, turned.

Where the first log has a basin, the second has it turned by some turn, which a line `turn t` in both changes into another.
"""

from __future__ import annotations

from basin import FileFault, Head, Leaf, read, write
from logs import Case
from replay import Replay, Reply, Run, Stop, lines_of
from turns import TURNS, composite, inverse, turned, turned_place, turned_record

PLACED = ("look", "pour", "draw", "settle", "split", "merge")


def turned_file(data: bytes, turn: int) -> bytes:
    """Bytes that hold no basin stay as they are."""
    try:
        return write(turned(read(data), turn))
    except FileFault:
        return data


class TurnedLog:
    """Follows a log in the model, and makes the turned one with the answers that it must have."""

    def __init__(self, case: Case, turn: int):
        self.case, self.turn = case, turn
        self.files = {name: turned_file(data, turn) for name, data in case.files.items()}
        self.state = Replay(dict(case.files))
        self.of_basin, self.of_draft = turn, turn  # the turn that takes what the first log has to what the second has
        self.of_file = {name: turn for name in case.files}
        self.lines, self.replies = [], []

    def make(self) -> tuple[Case, Run]:
        """The turned log, and what the program must do with it."""
        stopped, why, lines = None, "", lines_of(self.case.log)
        for count, line in enumerate(lines, 1):
            try:
                self.follow(line)
            except Stop as stop:
                stopped, why = count, str(stop)
                self.lines += lines[count - 1 :]
                break
        kept = {name: turned_file(data, self.of_file[name]) for name, data in self.state.files.items()}
        case = Case(f"{self.case.kind}, turned by {self.turn}", "\n".join(self.lines), self.files)
        return case, Run(self.replies, stopped, why, kept)

    def follow(self, line: str) -> None:
        reply = self.state.perform(line)
        if reply is None:
            self.lines.append(line)
            return
        name, *words = line.split(" ")
        if reply.text.startswith("ok"):
            self.keep_turns(name, words)
        self.lines.append(self.turned_line(name, words))
        self.replies.append(self.turned_reply(name, reply))

    def keep_turns(self, name: str, words: list[str]) -> None:
        """After a call that was granted."""
        if name == "read":
            self.of_basin = self.turn
        elif name == "load":
            self.of_basin = self.of_file[words[0]]
        elif name == "save":
            self.of_file[words[0]] = self.of_basin
        elif name == "open":
            self.of_draft = self.turn
        elif name == "close":
            self.of_basin = self.of_draft
        elif name == "turn":
            turn = int(words[0])
            self.of_basin = composite(composite(inverse(turn), self.of_basin), turn)

    def turned_line(self, name: str, words: list[str]) -> str:
        if name == "read" and words:
            words = [turned_file(bytes.fromhex(words[0]), self.turn).hex()]
        elif name in PLACED:
            words = self.turned_words(self.state.basin.head, words, self.of_basin)
        elif name == "lay":
            draft = self.state.draft
            words = self.turned_words(Head(draft.depth, draft.width, 0), words, self.of_draft)
        return " ".join([name, *words])

    def turned_words(self, head: Head, words: list[str], turn: int) -> list[str]:
        x, y = turned_place(head, int(words[0]), int(words[1]), turn)
        return [str(x), str(y), *words[2:]]

    def turned_reply(self, name: str, reply: Reply) -> Reply:
        if not reply.text.startswith("ok") or name not in ("look", "write", "save"):
            return reply
        if name == "look":
            *others, east, north = reply.text.split(" ")
            held = turned_record(Leaf(0, int(east), int(north)), self.of_basin)
            return reply._replace(text=" ".join([*others, str(held.east), str(held.north)]))
        data = write(turned(self.state.basin, self.of_basin))  # a discharge may be longer with the other sign
        return reply._replace(text=f"ok {data.hex() if name == 'write' else len(data)}")


def turned_logs(case: Case) -> list[tuple[Case, Run]]:
    """By each of the eight turns."""
    return [TurnedLog(case, turn).make() for turn in TURNS]
