"""The 24 groups of 2021/22 to 2023/24: their last tables are UEFA's.

What their README says of other orders is so.
"""

import random
import re
import shutil
from collections.abc import Callable, Iterable, Sequence
from typing import Any

import conftest
import hypothesis.strategies as st
import model
import pytest
import seasons
from hypothesis import given

SEASONS = conftest.EXAMPLES / "seasons"
README = conftest.text_of(SEASONS / "README.md")
GROUPS = seasons.groups()
# Coefficients of slots 1 to 4: one order of the slots and its reverse, and those of the examples.
COEFFICIENTS = {"rising": (1, 2, 3, 4), "falling": (4, 3, 2, 1)}
NONE = (0, 0, 0, 0)
# Matches with the slots of their clubs, and an order of slots by such.
Matches = list[tuple[tuple[int, int], model.Match]]
Order = Callable[[Matches], list[int]]


def joined(rows: Iterable[str]) -> str:
    """Rows as a text."""
    return "".join(row + "\n" for row in rows)


def names(group: seasons.Group) -> list[str]:
    """The clubs in the order of UEFA's final table."""
    return [place.club for place in group.table]


def closing_screen(group: seasons.Group) -> str:
    """The screen of UEFA's final table, with matches counted by the results."""
    events = sum(it.home_goals + it.away_goals + 2 for it in group.results)
    lines = [f"GROUP {group.letter} v{events:05d} IN PLAY 0"]
    lines.append("    Club                  P  W  D  L  GF  GA   GD Pts")
    for number, place in enumerate(group.table, 1):
        gains = [it.home_goals - it.away_goals for it in group.results if it.home == place.club]
        gains += [it.away_goals - it.home_goals for it in group.results if it.away == place.club]
        won, lost = sum(it > 0 for it in gains), sum(it < 0 for it in gains)
        figures = f"{len(gains):3}{won:3}{len(gains) - won - lost:3}{lost:3}"
        figures += f"{place.goals_for:4}{place.goals_against:4}"
        figures += f"{place.goals_for - place.goals_against:+5}{place.points:4}"
        lines.append(f"{number} {'+' if number <= 2 else '-'} {place.club:20}{figures}")
    return joined(lines)


# ---- last tables

test_last_tables = conftest.tabled(
    {
        f"{group.season} {group.letter}, {name} coefficients": (
            f"ucl_night night --group {group.letter}",
            joined([*group.club_rows(coefficients), *group.rows()[4:]]),
            "FINAL\n" + closing_screen(group),
        )
        for group in GROUPS
        for name, coefficients in COEFFICIENTS.items()
    }
)


@pytest.mark.quick
@given(st.data(), st.sampled_from(GROUPS), st.tuples(*4 * [st.integers(0, 999_999)]))
def test_no_final_table_depends_on_slots_or_coefficients(
    data: st.DataObject, group: seasons.Group, coefficients: Sequence[int]
) -> None:
    clubs = data.draw(st.permutations(group.clubs))
    order = model.order(finished(group, clubs), coefficients)
    assert [clubs[slot - 1] for slot in order] == names(group)


def test_tables_side_by_side(program: Any, place: Any, tmp_path: Any) -> None:
    """All 24 are the same; where a table of the data is changed, the comparison finds it."""
    program("ucl_live")
    folder = tmp_path / "examples/seasons"
    shutil.copytree(SEASONS, folder)
    (tmp_path / "ucl_live").symlink_to(place / "ucl_live")
    status, output, errors = conftest.command([folder / "compare.py"])
    assert (status, output.splitlines()[-1], errors) == (0, "24 of 24 tables are UEFA's", "")
    name, _, *rows = output.split("\n\n")[12].splitlines()
    wanted = "2 AC Milan              6  3  1  2  12   7  10   AC Milan              12   7  10"
    assert (name, len(rows), rows[1]) == ("2022-23, group E", 4, wanted)
    tables = folder / "2022-23-tables.csv"
    tables.write_text(tables.read_text().replace("E,2,AC Milan,10,12,7", "E,2,AC Milan,10,12,8"))
    status, output, errors = conftest.command([folder / "compare.py", "2022-23"])
    assert (status, output.splitlines()[-1], errors) == (1, "7 of 8 tables are UEFA's", "")


def test_screens_of_matchdays(program: Any, place: Any) -> None:
    """The line of the README that has a group's six matchdays shows them."""
    program("ucl_live")
    (line,) = re.findall(r"^    (\S+/rows\.py 2022-23 B --screens .*)$", README, re.M)
    group, rows = seasons.group("2022-23", "B"), []
    for matchday in seasons.MATCHDAYS:
        rows += [*group.matchday_rows(matchday), "screen,,,"]
    answers = model.Session(["--group", "B"]).of(joined([*group.club_rows(), *rows]))[1]
    screens = "".join(it for it in answers.splitlines(True) if " ok " not in it)
    assert screens.count("GROUP") == 6 and screens.endswith(closing_screen(group))
    assert conftest.command(["bash", "-c", line], cwd=place) == (0, screens, "")


def test_recordings(program: Any, place: Any, tmp_path: Any) -> None:
    """What the page of screens replays is what `ucl_live` writes."""
    program("ucl_live")
    pages = place / "ucl_hall/web/pages"
    (tmp_path / "index.html").touch()
    status, output, errors = conftest.command([place / "examples/seasons/record.py", tmp_path])
    assert (status, errors, output.count("\n")) == (0, "", 4)
    recorded = {path.name: conftest.text_of(path) for path in tmp_path.glob("*.jsonl")}
    kept = {path.name: conftest.text_of(path) for path in pages.glob("*.jsonl")}
    assert recorded.keys() == kept.keys() and [it for it in kept if kept[it] != recorded[it]] == []


# ---- other orders


def match_of(home_goals: int, away_goals: int) -> model.Match:
    """A match that ended so."""
    match = model.Match()
    match.goals, match.state = [home_goals, away_goals], model.FINISHED
    return match


def finished(group: seasons.Group, clubs: Sequence[str], count: int = 12) -> Matches:
    """The first matches of a group, which are over; slots are the places among these clubs."""
    slot = {club: number for number, club in enumerate(clubs, 1)}
    slots = [(slot[it.home], slot[it.away]) for it in group.results]
    matches = [match_of(it.home_goals, it.away_goals) for it in group.results]
    return list(zip(slots, matches))[:count]


def right(matches: Matches) -> list[int]:
    """The order of the Regulations."""
    order: list[int] = model.order(matches, NONE)
    return order


def once(matches: Matches) -> list[int]:
    """Compares head to head among all clubs that are level, and not again among fewer."""
    order = []
    for clubs in model.classes([1, 2, 3, 4], lambda club: model.points(matches, club)):
        ties = model.among(matches, clubs)
        keys = {it: (model.triple(ties, it), model.overall(matches, it, NONE)) for it in clubs}
        order += sorted(clubs, key=lambda club: keys[club], reverse=True)
    return order


def by_difference(matches: Matches) -> list[int]:
    """Goal difference and goals of all matches go before head to head."""
    level = model.classes([1, 2, 3, 4], lambda club: model.triple(matches, club))
    return [it for clubs in level for it in model.settled(matches, clubs, NONE)]


def places(group: seasons.Group, order: Order) -> list[str]:
    """The clubs in the order that all twelve results give."""
    return [group.clubs[slot - 1] for slot in order(finished(group, group.clubs))]


@pytest.mark.quick
def test_the_wrong_table_of_the_first_page() -> None:
    """Its second table is the first one in the order that compares head to head once."""
    page = conftest.text_of(conftest.TOP / "README.md")
    right_table, wrong_table = re.findall(r"^```\n((?:\d? .*\n)+)```$", page, re.M)
    rows = {row[4:24].strip(): row for row in right_table.splitlines()[1:]}
    played = model.parsed(conftest.text_of(conftest.EXAMPLES / "head_to_head.csv"))[1]
    order = once(list(zip(model.FIXTURES, model.entered(played)[0])))
    wanted = [rows[model.ROSTER[slot - 1][0]][4:] for slot in order]
    assert wrong_table == joined(old[:4] + new for old, new in zip(rows.values(), wanted))
    assert list(rows) != [row[4:24].strip() for row in wrong_table.splitlines()]


WRONG: dict[str, Order] = {"head to head once": once, "goal difference first": by_difference}


def told(column: str) -> dict[str, str]:
    """What the README's table has in a column, by the names of the orders."""
    head, _, *rows = [
        [cell.strip() for cell in line.strip("|").split("|")]
        for line in README.splitlines()
        if line.startswith("|")
    ]
    return {row[0]: row[head.index(column)] for row in rows}


def faults(groups: Iterable[Matches]) -> dict[str, int]:
    """How many of these each order gets wrong, other than the Regulations do."""
    counts = dict.fromkeys(WRONG, 0)
    for matches in groups:
        # Where no two clubs are level, all orders are the same.
        if len({model.points(matches, club) for club in (1, 2, 3, 4)}) < 4:
            wanted = right(matches)
            for name, order in WRONG.items():
                counts[name] += order(matches) != wanted
    return counts


def as_told(counts: dict[str, int]) -> dict[str, str]:
    """Counts as the README writes them."""
    return {name: f"{count:,}" for name, count in counts.items()}


@pytest.mark.quick
def test_moments() -> None:
    """After each match of each group, with none in play."""
    moments = [finished(group, group.clubs, count) for group in GROUPS for count in range(1, 13)]
    assert as_told(faults(moments)) == told(f"{len(moments)} moments")


@pytest.mark.quick
def test_final_tables() -> None:
    """The Regulations' order gives all of UEFA's; which others get wrong is as the README says."""
    assert all(places(it, right) == names(it) for it in GROUPS)
    for name, order in WRONG.items():
        wrong = [it for it in GROUPS if places(it, order) != names(it)]
        told_of = ", ".join(f"{it.season} {it.letter}" for it in wrong)
        assert told("24 final tables")[name] == (f"{len(wrong)}: {told_of}" if wrong else "0")


@pytest.mark.quick
def test_random_groups(pytestconfig: pytest.Config) -> None:
    """Groups whose twelve results are each drawn from the 288 results of the three seasons."""
    count, chance = pytestconfig.getoption("groups"), random.Random(2024)
    results = [(it.home_goals, it.away_goals) for group in GROUPS for it in group.results]
    drawn = ([match_of(*chance.choice(results)) for _ in range(12)] for _ in range(count))
    counts = as_told(faults(list(zip(model.FIXTURES, matches)) for matches in drawn))
    print(f"{count:,} random groups: {counts}")
    assert counts == told(f"{count:,} random groups")
