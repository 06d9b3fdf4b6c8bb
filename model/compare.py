"""Holds the programs to the model: `sheet` to basin.py, `replay` to replay.py, `fluxes` to fluxes.py.

    python3 model/compare.py sheet PATH [--seed N] [--count N]
    python3 model/compare.py replay PATH [--seed N] [--count N]
    python3 model/compare.py fluxes PATH [--seed N] [--count N]
    python3 model/compare.py self-test
"""

from __future__ import annotations

import argparse
import subprocess
import sys
import tempfile
from collections import Counter
from concurrent.futures import ThreadPoolExecutor
from dataclasses import dataclass
from itertools import islice
from pathlib import Path

import files
import fluxes
import logs
import replay
import selftest
from basin import sheet
from laws import Books, Broken, keeps_laws
from logs import Case
from replay import FOLDER, Run
from turned import turned_logs

OUTCOMES = ("ok", "refused 12/1", "refused 13/1", "refused 14/2", "refused 14/3", "refused 15/3", "refused 2/2")
FAULTS = ("12/1", "13/1", "14/2", "14/3", "15/3", "2/2")
# What some log must meet: of each call that it is granted, and every refusal that a log can have.
REPLAY_OUTCOMES = {
    "open": ("ok", "4 L", "4 d"),
    "lay": ("ok", "3", "4"),
    "close": ("ok",),
    "read": ("ok", *FAULTS),
    "load": ("ok", *FAULTS),
    "write": ("ok",),
    "save": ("ok",),
    "look": ("ok", "3"),
    "total": ("ok",),
    "pour": ("ok", "3", "4", "10"),
    "draw": ("ok", "3", "4", "8"),
    "settle": ("ok", "3", "10"),
    "split": ("ok", "3", "5", "6", "7 a child less than 1", "7 dry ground below water", "10", "11"),
    "merge": ("ok", "3", "5 level 0", "5 a sibling is no leaf", "6", "7 wet and dry siblings", "7 dry ground below water"),
    "turn": ("ok", "4"),
    "stopped": ("no call", "no number", "no hexadecimal digits", "no basin yet", "no draft", "cannot be opened", "cannot be written"),
}
STEP_OUTCOMES = {"step": ("ok", "4", "9", "10")}
TURNED = 20  # of so many logs one is also run for turned basins
PATIENCE = 60  # seconds


@dataclass(frozen=True)
class Answer:
    out: bytes
    err: bytes = b""
    status: int | None = 0  # None: did not end in time

    def __str__(self) -> str:
        return f"status {self.status}, stdout {shortened(repr(self.out))}, stderr {shortened(repr(self.err))}"


def shortened(text: str, most: int = 400) -> str:
    return text if len(text) <= most else f"{text[: most // 2]} ... {text[-most // 2 :]}"


def run(program: Path, data: bytes) -> Answer:
    try:
        done = subprocess.run([program], input=data, capture_output=True, timeout=PATIENCE)
    except subprocess.TimeoutExpired:
        return Answer(b"", b"", None)
    return Answer(done.stdout, done.stderr, done.returncode)


def outcome(printed: str) -> str:
    if not printed.startswith("refused"):
        return "ok"
    _, number, _, layer = printed.split()
    return f"refused {number}/{layer}"


def report(kind: str, data: bytes, seed: int, wanted: Answer, given: Answer) -> None:
    kept = Path(tempfile.mkdtemp(prefix="basin-")) / "input"
    kept.write_bytes(data)
    print(f"differs: {kind} (seed {seed}, {len(data)} bytes, kept in {kept})")
    print(f"  model:   {wanted}\n  program: {given}")
    pairs = zip(wanted.out.split(b"\n"), given.out.split(b"\n"))
    for line, (ours, theirs) in enumerate(pairs, 1):
        if ours != theirs:
            print(f"  answer {line}: model {shortened(repr(ours))}, program {shortened(repr(theirs))}")
            return


# sheet


def compare_files(program: Path, seed: int, count: int) -> bool:
    made = list(islice(files.cases(seed), count))
    met: dict[str, Counter[str]] = {}
    with ThreadPoolExecutor(2) as pool:
        answers = pool.map(lambda case: run(program, case[1]), made)
        for case, given in zip(made, answers):
            printed = sheet(case[1])
            if given != (wanted := Answer(printed.encode())):
                pool.shutdown(wait=False, cancel_futures=True)
                report(*case, seed, wanted, given)
                return False
            met.setdefault(case[0].split(":")[0], Counter())[outcome(printed)] += 1
    total = sum(met.values(), Counter())
    for group, counts in [*met.items(), ("all", total)]:
        print(f"{group:<11}{counts.total():>5}: " + ", ".join(f"{key} {counts[key]}" for key in sorted(counts)))
    if never := [key for key in OUTCOMES if key not in total]:
        print(f"model: never met: {', '.join(never)} (seed {seed}, count {count})")
        return False
    print(f"model: {len(made)} files agree")
    return True


# replay


def message_fits(program: str, err: bytes, stopped: int | None, is_empty: bool) -> bool:
    """Of a message only its beginning is compared."""
    if stopped is not None:
        return err.startswith(f"{program}: line {stopped}: ".encode())
    return err.startswith(f"{program}: the log is empty".encode()) if is_empty else err == b""


def encoded(log: str) -> bytes:
    return log.encode(errors="surrogateescape")


def run_log(program: Path, case: Case) -> tuple[Answer, dict[str, bytes]]:
    """Runs the log on a folder of its own; also gives the files that it leaves there."""
    with tempfile.TemporaryDirectory(prefix="replay-") as folder:
        for name, data in case.files.items():
            Path(folder, name.removeprefix(FOLDER)).write_bytes(data)
        given = run(program, encoded(case.log.replace(FOLDER, f"{folder}/")))
        return given, {f"{FOLDER}{path.name}": path.read_bytes() for path in Path(folder).iterdir()}


def agrees(program: Path, case: Case, wanted: Run, seed: int) -> bool:
    """Whether the program does with the log what is wanted, printing a report if not."""
    given, left = run_log(program, case)
    status = 0 if wanted.stopped is None else 1
    is_same = given.out == wanted.printed.encode() and given.status == status
    if is_same and message_fits("replay", given.err, wanted.stopped, case.log == "") and left == wanted.files:
        return True
    stopped = b"" if wanted.stopped is None else f"(line {wanted.stopped}: {wanted.why})".encode()
    report(f"a log, {case.kind}", encoded(case.log), seed, Answer(wanted.printed.encode(), stopped, status), given)
    if left != wanted.files:
        print(f"  the files that the log leaves differ: {[name for name in left if left[name] != wanted.files.get(name)]}")
    return False


def turned_agree(program: Path, case: Case, seed: int) -> bool:
    """Whether program and model answer for each turned basin as for the basin itself, up to the turn."""
    for turned_case, wanted in turned_logs(case):
        again = replay.replay(turned_case.log, turned_case.files)
        if (again.printed, again.stopped, again.files) != (wanted.printed, wanted.stopped, wanted.files):
            first, second = Answer(wanted.printed.encode()), Answer(again.printed.encode())
            report(f"the model with itself, a log, {turned_case.kind}", encoded(turned_case.log), seed, first, second)
            return False
        if not agrees(program, turned_case, wanted, seed):
            return False
    return True


def never_met(met: Counter[str]) -> list[str]:
    named = REPLAY_OUTCOMES | (STEP_OUTCOMES if replay.STEPS else {})
    return [f"{call} {case}" for call, cases in named.items() for case in cases if f"{call} {case}" not in met]


def compare_logs(program: Path, seed: int, count: int) -> bool:
    met: Counter[str] = Counter()
    turned = 0
    for place, case in enumerate(logs.some_logs(seed, count)):
        try:
            wanted = replay.replay(case.log, case.files, Books().watch)
        except Broken as broken:
            print(f"model: {broken} (seed {seed})")
            return False
        if not agrees(program, case, wanted, seed):
            return False
        met.update(reply.outcome for reply in wanted.replies)
        if wanted.stopped is not None:
            met[f"stopped {wanted.why}"] += 1
        if place % TURNED == 0:
            turned += 1
            if not turned_agree(program, case, seed):
                return False
    print("replay: " + ", ".join(f"{key}: {met[key]}" for key in sorted(met)))
    if never := never_met(met):
        print(f"model: never met in a log: {', '.join(never)} (seed {seed}, count {count})")
        return False
    print(f"model: {count} logs agree, {turned} of them under all turns")
    return True


# fluxes


def compare_fluxes(program: Path, seed: int, count: int) -> bool:
    lines = fluxes.lines(seed, count)
    text = "".join(f"{line}\n" for line in lines)
    wanted, given = Answer(fluxes.fluxes(text)[0].encode()), run(program, text.encode())
    if given != wanted:
        report("sides", text.encode(), seed, wanted, given)
        return False
    if broken := [line for line in lines if not keeps_laws(line)]:
        print(f"model: the rule breaks a law at {broken[0]}")
        return False
    for bad in fluxes.BAD_LINES:
        text = f"# one\npond 1 0 0 1 0 0\n{bad}\npond 2 0 0 1 0 0\n"
        printed, stopped = fluxes.fluxes(text)
        given = run(program, text.encode())
        if (given.out, given.status) != (printed.encode(), 1) or not message_fits("fluxes", given.err, stopped, False):
            report("a bad line", text.encode(), seed, Answer(printed.encode(), f"(line {stopped})".encode(), 1), given)
            return False
    none = wanted.out.split(b"\n").count(b"no side")
    print(f"model: {2 * count} answers to {count} pairs of sides agree, {none} of them `no side`; {len(fluxes.BAD_LINES)} bad lines")
    return none > 0


def main() -> int:
    by = {"sheet": (compare_files, 4_000), "replay": (compare_logs, 1_500), "fluxes": (compare_fluxes, 10_000)}
    parser = argparse.ArgumentParser(description="Holds the programs to the model.")
    parser.add_argument("what", choices=(*by, "self-test"))
    parser.add_argument("program", type=Path, nargs="?", metavar="PATH", help="of the program to compare")
    parser.add_argument("--seed", type=int, default=1)
    parser.add_argument("--count", type=int, help="inputs to make; too few miss some outcomes")
    given = parser.parse_args()
    if given.what == "self-test":
        selftest.self_test()
        return 0
    if given.program is None or not given.program.is_file():
        parser.error("PATH is no file")
    compare, count = by[given.what]
    return 0 if compare(given.program.resolve(), given.seed, given.count or count) else 1


if __name__ == "__main__":
    sys.exit(main())
