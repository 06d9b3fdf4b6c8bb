"""Holds the model to the numbers of docs/BASIN.md, and to the laws that the page states."""

from __future__ import annotations

from collections.abc import Callable, Iterator
from contextlib import contextmanager
from dataclasses import replace
from random import Random

import basins
import calls
import files
import fluxes
import leaves
import logs
import replay
import turned
import turns
from basin import LOOKED_AT, MOST_DEPTH, Basin, Head, Leaf, encode, read, sheet, unsigned, write
from calls import Draft, Refused
from flow import RULES, Flux, Side, central, pond
from laws import Books, keeps_laws
from leaves import DRY, all_leaves, quotient, record, surface_number
from step import step


def self_test() -> None:
    numbers_and_files()
    drafts_and_looks()
    pouring()
    splitting_and_merging()
    no_basins()
    eight_turns()
    flow_rules()
    steps()
    steps_by_hand()
    standing_water()
    logs_with_steps()
    print("model: self-test passed")


def refusal(call: Callable[..., object], *arguments: object) -> int:
    """The number that the call is refused with, or 0."""
    try:
        call(*arguments)
    except Refused as refused:
        return refused.number
    return 0


def one_leaf(depth: int, beds: list[int], held: Leaf, loose: int = 0) -> Basin:
    size = 4**depth
    return Basin(Head(depth, 1, loose), [0] * size, list(beds), [held] * size)


def units(beds: list[int], records: list[Leaf], width: int = 1) -> Basin:
    """Four leaves of one square each."""
    return Basin(Head(1, width, 0), [1] * 4, list(beds), list(records))


def split(*quarters: str) -> str:
    return " 01" + "".join(quarters)


def numbers_and_files() -> None:
    assert encode(300) == bytes.fromhex("AC 02")
    assert [unsigned(q) for q in (0, -1, 1, -2)] == [0, 1, 2, 3]
    assert [quotient(a, b) for a, b in ((7, 2), (-7, 2), (7, -2), (-7, -2), (-1, 2), (0, 3))] == [3, -3, -3, 3, 0, 0]
    dry = bytes.fromhex("00 01 00 00 00 00 00 00")
    assert write(Basin(Head(0, 1, 0), [0], [0], [Leaf(0, 0, 0)])) == dry
    assert sheet(dry) == "1 1 0\n0 0 1 0 0 0 0\n"
    assert len(write(files.fullest(MOST_DEPTH))) < LOOKED_AT

    leaf, beds = " 00 00 00 00", " 00" * 64
    fine, finer = split(*[leaf] * 4), split(split(*[leaf] * 4), leaf, leaf, leaf)
    for given, printed in {
        "01 02 03 00 05 00 00 01 02 03 04": "2 2 3\n0 0 2 3 5 0 0\n",
        "01 02 03" + split(" 00 03 05 00", leaf, leaf, " 00 02 00 06") + "01 02 03 04":
            "2 2 3\n0 0 1 4 3 -3 0\n1 0 1 2 0 0 0\n0 1 1 3 0 0 0\n1 1 1 6 2 0 3\n",
        "": "refused 12 0 1\n",
        "00 01 00 00 00 00 00": "refused 12 7 1\n",
        "00 AC": "refused 12 1 1\n",
        "80 80 80 80 80": "refused 12 0 1\n",
        "80 80 80 80 80 80": "refused 13 0 1\n",
        "80 80 80 80 80 00": "refused 13 0 1\n",
        "80 00": "refused 13 0 1\n",
        "07": "refused 14 0 3\n",
        "00 00": "refused 14 1 3\n",
        "00 E9 07": "refused 14 1 3\n",
        "00 01 C1 84 3D": "refused 14 2 3\n",
        "00 01 00 01": "refused 14 3 2\n",
        "01 01 00 02": "refused 14 3 2\n",
        "00 01 00 00 B1 EA 01": "refused 14 4 2\n",
        "00 01 00 00 00 01": "refused 14 5 2\n",
        "00 01 00 00 01 A0 9C 01 A1 9C 01": "refused 14 8 2\n",
        "00 01 00 00 00 00 00 B1 EA 01": "refused 14 7 3\n",
        "00 01 00 00 00 00 00 00 80": "refused 15 8 3\n",
        "03 01 00" + split(leaf, finer, leaf, leaf) + beds: "refused 2 110 2\n",  # by an edge
        "03 01 00" + split(leaf, fine, fine, finer) + beds: "refused 2 136 2\n",  # by a corner
        "03 01 00" + split(leaf, fine, fine, finer) + beds + "00": "refused 15 136 3\n",
    }.items():
        assert sheet(bytes.fromhex(given)) == printed, (given, printed, sheet(bytes.fromhex(given)))

    rng = Random(1)
    for depth in range(MOST_DEPTH + 1):
        for _ in range(10):
            basin = files.random_basin(rng, depth)
            assert read(write(basin)) == basin, basin

def drafts_and_looks() -> None:
    assert [refusal(calls.open_draft, *given) for given in ((7, 1), (0, 0), (0, 1_001), (6, 1_000), (0, 1))] == [4, 4, 4, 0, 0]
    draft = calls.open_draft(1, 25)
    assert [refusal(calls.lay, draft, *given) for given in ((2, 0, 30_001), (0, 2, 0), (1, 1, 30_001))] == [3, 3, 4]
    calls.lay(draft, 1, 1, 30_000)
    assert draft == Draft(1, 25, [0, 0, 0, 30_000])
    basin = calls.close(draft)
    assert basin == Basin(Head(1, 25, 0), [0] * 4, [0, 0, 0, 30_000], [DRY] * 4)
    assert calls.look(basin, 1, 0) == (0, 0, 7_500, 0, 0)
    assert calls.total(one_leaf(1, [0] * 4, Leaf(7, 0, 0), loose=3)) == 10


def pouring() -> None:
    basin = one_leaf(1, [0, 0, 0, 5], Leaf(7, 70_000, -70_000), loose=4)
    for call in (calls.pour, calls.draw):
        assert [refusal(call, basin, *given) for given in ((2, 0, 0), (0, 2, 1), (0, 0, 0), (0, 0, 122_880_001))] == [3, 3, 4, 4]
    assert refusal(calls.pour, basin, 0, 0, 119_994) == 10
    assert refusal(calls.draw, basin, 0, 0, 8) == 8
    assert calls.draw(basin, 1, 1, 3) == 2 and basin.leaves == [Leaf(4, 40_000, -40_000)] * 4
    assert calls.pour(basin, 1, 0, 119_996) == 30_001 and basin.leaves == [Leaf(120_000, 40_000, -40_000)] * 4
    assert refusal(calls.settle, basin, 0, 0) == 10 and refusal(calls.settle, basin, 0, 2) == 3
    assert calls.draw(basin, 0, 0, 4) == 30_000 and calls.settle(basin, 0, 0) == 4 and calls.settle(basin, 0, 0) == 0
    assert basin.head.loose == 0 and calls.total(basin) == 120_000


def splitting_and_merging() -> None:
    basin = one_leaf(1, [0] * 4, Leaf(7, 10, -10))
    assert calls.split(basin, 0, 0) == 3
    assert basin == Basin(Head(1, 1, 3), [1] * 4, [0] * 4, [Leaf(1, 2, -2)] * 4)
    assert refusal(calls.split, basin, 0, 0) == 5
    assert calls.merge(basin, 1, 1) == 1 and basin.leaves == [Leaf(4, 8, -8)] * 4 and refusal(calls.merge, basin, 0, 0) == 5
    assert refusal(calls.split, one_leaf(1, [0] * 4, Leaf(3, 0, 0)), 0, 0) == 7
    assert refusal(calls.split, one_leaf(1, [0, 0, 0, 5], Leaf(7, 0, 0)), 0, 0) == 7
    assert refusal(calls.split, one_leaf(1, [0, 2, 2, 2], Leaf(120_000, 0, 0)), 0, 0) == 10
    assert calls.split(one_leaf(1, [0, 1, 1, 1], Leaf(120_000, 0, 0)), 0, 0) == 3
    assert refusal(calls.split, one_leaf(1, [0] * 4, Leaf(7, 0, 0), loose=999_998), 0, 0) == 11
    assert calls.split(one_leaf(1, [0] * 4, Leaf(7, 0, 0), loose=999_997), 0, 0) == 3
    assert calls.split(one_leaf(1, [0, 9, 0, 9], DRY), 0, 0) == 0
    assert refusal(calls.merge, units([0] * 4, [Leaf(1, 0, 0), DRY, DRY, DRY]), 0, 0) == 7
    beside_water()
    beside_other_levels()


def beside_water() -> None:
    """Dry ground beside a quarter that holds water with its surface at 5."""
    lake, level_two = Leaf(20, 0, 0), [1, 1, 2, 2] * 2 + [1] * 8
    high_in_west = [0, 0, 4, 9, 0, 0, 5, 9] + [9] * 8
    basin = Basin(Head(2, 1, 0), [1] * 16, high_in_west, [lake, lake, DRY, DRY] * 2 + [DRY] * 8)
    assert refusal(calls.split, basin, 3, 1) == 7  # K of the south-western child is 4
    basin.beds[2] = 5
    assert calls.split(basin, 3, 1) == 0 and basin.levels == level_two
    low = [0, 0, 5, 0, 0, 0, 5, 0] + [9] * 8
    merging = Basin(Head(2, 1, 0), level_two, low, basin.leaves)
    assert refusal(calls.merge, merging, 2, 0) == 7  # K of the four is 2
    merging.beds[3] = merging.beds[7] = 5
    assert calls.merge(merging, 2, 0) == 5 and merging.levels == [1] * 16


def beside_other_levels() -> None:
    """The tree of one split and its north-eastern quarter split again, then the quarter's south-western one."""
    basin = one_leaf(3, [0] * 64, DRY)
    for x, y in ((0, 0), (4, 4)):
        assert calls.split(basin, x, y) == 0
    assert refusal(calls.split, basin, 5, 5) == 6  # beside three leaves of level 1, one by its corner only
    assert refusal(calls.merge, basin, 0, 0) == 5  # a sibling is no leaf
    assert calls.split(basin, 4, 0) == 0 and calls.split(basin, 0, 4) == 0
    assert refusal(calls.split, basin, 5, 5) == 6  # by the corner
    assert calls.split(basin, 0, 0) == 0 and calls.split(basin, 5, 5) == 0
    assert [refusal(calls.merge, basin, *place) for place in ((0, 0), (4, 0), (0, 4), (6, 6))] == [6, 6, 6, 5]
    assert calls.merge(basin, 4, 4) == 0 and calls.merge(basin, 0, 0) == 0


def no_basins() -> None:
    """Refusals 1 and 2, of every call."""
    good = units([0] * 4, [Leaf(9, 5, 5)] * 4)
    coarse, finer = [1] * 32, ([1] * 4 + [2] * 4) * 2
    short = [replace(good, levels=[1] * 3), replace(good, beds=[0] * 5), replace(good, leaves=[])]
    wrong = [
        replace(good, head=Head(1, 0, 0)), replace(good, head=Head(1, 1, 1_000_001)), replace(good, levels=[2] * 4),
        replace(good, levels=[0] * 3 + [1]), replace(good, levels=[1, 1, 1, 0]), replace(good, beds=[30_001, 0, 0, 0]),
        replace(good, leaves=[Leaf(30_001, 0, 0)] * 4), replace(good, leaves=[Leaf(1, 10_001, 0)] * 4),
        replace(good, leaves=[Leaf(1, 0, -10_001)] * 4), replace(one_leaf(1, [0] * 4, DRY), leaves=[DRY, DRY, DRY, Leaf(1, 0, 0)]),
        Basin(Head(3, 1, 0), coarse + ([1] * 4 + [3] * 2 + [2] * 2) * 2 + finer, [0] * 64, [DRY] * 64),  # by edges and a corner
    ]  # fmt: skip
    assert leaves.valid(Basin(Head(3, 1, 0), coarse + finer + ([1] * 4 + [2] * 2 + [3] * 2) * 2, [0] * 64, [DRY] * 64))
    for number, tables in ((1, short), (2, wrong)):
        for basin in tables:
            for call, *given in (
                (calls.look, 9, 9), (calls.total,), (calls.pour, 9, 9, 0), (calls.draw, 9, 9, 0), (calls.settle, 9, 9),
                (calls.split, 9, 9), (calls.merge, 9, 9), (step, 0, pond), (turns.turned, 8),
            ):  # fmt: skip
                assert refusal(call, basin, *given) == number, (call, basin)


def eight_turns() -> None:
    head = Head(2, 1, 0)
    assert turns.turned_place(head, 0, 1, 4) == (3, 1) and turns.turned_place(head, 0, 1, 1) == (2, 0)
    assert turns.turned_place(head, 4, 1, 1) == (4, 1) and turns.turned_record(Leaf(9, 1, 2), 1) == Leaf(9, -2, 1)
    assert turns.composite(1, 4) == 7 and turns.composite(4, 1) == 5
    assert refusal(turns.turned_place, head, 0, 0, 8) == refusal(turns.composite, 8, 0) == refusal(turns.composite, 0, 8) == 4
    basin = basins.random_basin(Random(5), 3)
    assert turns.turned(basin, 0) == basin and refusal(turns.turned, basin, 8) == 4
    for first in turns.TURNS:
        once = turns.turned(basin, first)
        assert leaves.valid(once) and leaves.total(once) == leaves.total(basin)
        for then in turns.TURNS:
            assert turns.turned(once, then) == turns.turned(basin, turns.composite(first, then))


def flow_rules() -> None:
    dam, dry = Side(1_000, 0, 0), Side(0, 0, 0)
    assert central(dam, dry) == Flux(1_566_000, 2_452_500_000, 0)
    assert central(dry, Side(1, 0, 0)) == Flux(-49, 2_452, 0)
    assert central(Side(100, 50, 20), Side(100, 50, 20)) == Flux(5_000, 49_300_000, 100_000)
    assert pond(dam, dry) == Flux(3_132_000, 2_452_500_000, 0)
    assert central(dry, dry) == pond(dry, dry) == Flux(0, 0, 0)
    assert fluxes.fluxes("# x\n\npond 0 0 0 0 0 0\npond 0 1 0 0 0 0\npond 0\n") == ("0 0 0\nno side\n", 5)
    assert pond(Side(30_000, 0, 0), dry).flow == 514_650_000 and pond(Side(30_000, 0, 0), Side(30_000, 0, 0)).push == 4_414_500_000_000
    assert all(keeps_laws(line) for line in fluxes.lines(2, 500))


def steps() -> None:
    def dam() -> Basin:
        return units([0] * 4, [Leaf(1_000, 0, 0), DRY, DRY, DRY])

    basin = dam()
    assert step(basin, 50, central) == 156
    assert basin.leaves == [Leaf(844, 122_625, 122_625), Leaf(78, 122_625, 0), Leaf(78, 0, 122_625), DRY]
    assert refusal(step, dam(), 79, central) == 0 and refusal(step, dam(), 80, central) == 9
    assert refusal(step, dam(), 0, central) == refusal(step, dam(), 2_001, central) == 4
    edge = units([0] * 4, [Leaf(1, -151, 99), DRY, DRY, DRY])  # 4 × (151 + 99) × 1,000 is just not above 1,000,000
    assert refusal(step, edge, 1_001, pond) == 9 and refusal(step, edge, 1_000, pond) == 0
    full = units([0, 30_000, 0, 0], [Leaf(30_000, 0, 0), Leaf(100, 0, 0), DRY, DRY], width=1_000)
    assert refusal(step, full, 2_000, pond) == 0  # it gives more than it gets
    full.beds[2] = full.beds[3] = 30_000
    full.leaves = [Leaf(30_000, 0, 0), Leaf(30_000, 0, 0), DRY, DRY]
    assert refusal(step, full, 2_000, pond) == 10


def steps_by_hand() -> None:
    """Worked out with pencil and paper."""
    # The same water everywhere, moving: walls, pushes and drifts of both directions.
    stream = units([0] * 4, [Leaf(100, 5_000, 2_000)] * 4)
    assert step(stream, 200, central) == 2
    assert stream.leaves == [Leaf(99, 3_940, 1_576), Leaf(101, 3_940, 1_616), Leaf(99, 3_980, 1_576), Leaf(101, 3_980, 1_616)]
    # A leaf of two by two beside two of one square and one of two by two.
    pool = Leaf(4_000, 0, 0)
    mixed = Basin(Head(2, 1, 0), [1, 1, 2, 2] * 2 + [1] * 8, [0] * 16, [pool, pool, DRY, DRY] * 2 + [DRY] * 8)
    assert step(mixed, 100, pond) == 1_252
    south = [Leaf(2_748, 490_500, 490_500)] * 2 + [Leaf(313, 245_250, 0), DRY]
    assert mixed.leaves == south * 2 + ([Leaf(626, 0, 490_500)] * 2 + [DRY] * 2) * 2
    # Draining: 5 units over ground that is all but one square 1 high wish to pass 3 to the east and 3 to the north.
    beds = [1 if x < 16 and y < 16 and x + y > 0 else 0 for y in range(32) for x in range(32)]
    film, row = Basin(Head(5, 1, 0), [1] * 1_024, beds, [DRY] * 1_024), range(16)
    for square in (32 * y + x for y in row for x in row):
        film.leaves[square] = Leaf(5, 0, 0)
    assert step(film, 2_000, pond) == 4
    corners = [film.leaves[square] for square in (0, 16, 32 * 16, 32 * 16 + 16)]
    assert corners == [Leaf(1, 78, 78), Leaf(2, 78, 0), Leaf(2, 0, 78), DRY]


def squares_of(basin: Basin) -> list[int | None]:
    """The W of each wet square, and None of each dry one."""
    surfaces = {leaf: surface_number(basin, leaf) if record(basin, leaf).water else None for leaf in all_leaves(basin)}
    n = basin.head.n
    return [surfaces[leaves.leaf_at(basin, x, y)] for y in range(n) for x in range(n)]


def standing_water() -> None:
    """It stays through steps, splits and merges."""
    rng = Random(3)
    for _ in range(60):
        basin = basins.standing_lake(rng, rng.randint(0, 3))
        before, n = squares_of(basin), basin.head.n
        for _ in range(12):
            place = rng.randrange(n), rng.randrange(n)
            rule = rng.choice(list(RULES.values()))
            call, *given = rng.choice(((calls.split, *place), (calls.merge, *place), (step, rng.randint(1, 2_000), rule)))
            refusal(call, basin, *given)
            assert squares_of(basin) == before and all(held.east == held.north == 0 for held in basin.leaves), basin


@contextmanager
def step_lines() -> Iterator[None]:
    """Lets logs have the line `step`."""
    kept, replay.STEPS = replay.STEPS, True
    try:
        yield
    finally:
        replay.STEPS = kept


def logs_with_steps() -> None:
    """In the model alone: conservation, validity, and the same answers for turned basins; and that a step meets all its refusals."""
    met = set()
    with step_lines():
        for place, case in enumerate(logs.some_logs(4, 150)):
            made = replay.replay(case.log, case.files, Books().watch)
            met |= {reply.outcome for reply in made.replies}
            for turned_case, wanted in turned.turned_logs(case) if place % 10 == 0 else ():
                again = replay.replay(turned_case.log, turned_case.files)
                assert (again.printed, again.stopped, again.files) == (wanted.printed, wanted.stopped, wanted.files), turned_case
    assert met >= {"step ok", "step 4", "step 9", "step 10"}, met
