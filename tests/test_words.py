"""Words, events and orders by the library, with values that were worked out by hand, and 500 boards by recursive partition."""

import ctypes as c
import random
from collections.abc import Iterator
from typing import Any

import model
import pytest
from test_library import board, library  # noqa: F401, fixtures

# Words, and the fields of their matches: event number, state, goals, yellows and expulsions, home
# side first, and reporter.
FIELDS = {
    0x2000000000000000: (0,) * 9,
    0x2001000000001001: (1, 1, 0, 0, 0, 0, 0, 0, 1),
    0x2001000000005002: (2, 1, 1, 0, 0, 0, 0, 0, 1),
    0x2002000000001001: (1, 1, 0, 0, 0, 0, 0, 0, 2),
    0x2001080000002006: (6, 2, 0, 0, 0, 0, 0, 1, 1),
    0x200100010410A007: (7, 2, 2, 1, 1, 1, 0, 0, 1),
    0x20FFFFFFFFFFEFFF: (4095, 2, 63, 63, 63, 63, 31, 31, 255),
}
# Words of either layout, and the words that they are read as, if they are of a match.
READ = {
    0x0000000000000000: 0x2000000000000000,
    0x0000420000000806: 0x2001080000002006,
    0x003FFFFFFFFFFBFF: 0x20FFFFFFFFFFE3FF,
    0x0000400041042807: 0x200100010410A007,
    **dict.fromkeys([0x0000000000000C00, 0x0000000000000401, 0x0040000000000000]),
    **dict.fromkeys([0x2000000000003000, 0x2100000000000000]),
    **dict.fromkeys([0x2000000000001001, 0x1000000000000000]),
    **{word: word for word in FIELDS},
}


def read(board: Any, word: int) -> int | None:  # noqa: F811
    """The word that a word of either layout is read as."""
    made = c.c_uint64()
    status = board.read_word(word, made)
    assert status in (0, 10)
    return None if status else made.value


def fields(board: Any, word: int) -> tuple[int, ...] | None:  # noqa: F811
    """The fields of the match of a word of the present layout."""
    match = board.Match()
    status = board.match_of(word, match)
    assert status in (0, 10)
    return None if status else tuple(getattr(match, name) for name, _ in match._fields_)


def test_words(board: Any) -> None:  # noqa: F811
    assert {word: read(board, word) for word in READ} == READ
    assert {word: fields(board, word) for word in READ} == {it: FIELDS.get(it) for it in READ}


# The word of a match, the expected number and the kind of an event of reporter 1, and the word
# after it, or the number and the name of its refusal.
EVENTS = [
    (0x2000000000000000, 0, "kickoff", 0x2001000000001001),
    (0x2001000000001001, 1, "goal-home", 0x2001000000005002),
    # The first refusal that holds is the answer.
    (0x2001080000002006, 5, "goal-home", "Stale 6"),
    (0x2001080000002006, 6, "goal-home", "Finished"),
    (0x2001080000002006, 6, "fulltime", "Finished"),
    (0x2000000000000000, 0, "disallow-home", "NotStarted"),
    (0x2001000000001001, 1, "kickoff", "AlreadyStarted"),
    (0x2001000000001001, 1, "disallow-home", "NoGoal"),
    (0x2001000000001001, 1, "second-yellow-home", "NoCaution"),
    # 31 home expulsions, without and with a home yellow; 63 home goals.
    (0x200107C000001190, 400, "second-yellow-home", "NoCaution"),
    (0x200107C000001190, 400, "red-home", "LimitReached"),
    (0x200107C004001190, 400, "second-yellow-home", "LimitReached"),
    (0x20010000000FD190, 400, "goal-home", "LimitReached"),
    # Only full time is left where the number is full; the largest word comes of the last event.
    (0x2001000000005FFE, 4094, "goal-home", "NumberFull"),
    (0x2001000000005FFE, 4094, "kickoff", "AlreadyStarted"),
    (0x2001000000005FFE, 4094, "fulltime", 0x2001000000006FFF),
    # A match is reopened, and one with no number left for full time is not.
    (0x2001080000002006, 6, "reopen", 0x2001080000001007),
    (0x2001080000001007, 6, "reopen", "Stale 7"),
    (0x2001080000001007, 7, "reopen", "NotFinished"),
    (0x2001080000001007, 7, "goal-home", 0x2001080000005008),
    (0x2001080000005008, 8, "fulltime", 0x2001080000006009),
    (0x2000000000000000, 0, "reopen", "NotFinished"),
    (0x2001000000002FFE, 4094, "reopen", "NumberFull"),
    (0x2001000000002FFD, 4093, "reopen", 0x2001000000001FFE),
    (0x2001000000001FFE, 4094, "goal-home", "NumberFull"),
    (0x2001000000001FFE, 4094, "reopen", "NotFinished"),
    (0x2001000000001FFE, 4094, "fulltime", 0x2001000000002FFF),
]


@pytest.mark.parametrize("word, expected, kind, answer", EVENTS)
def test_events(
    board: Any, word: int, expected: int, kind: str, answer: int | str  # noqa: F811
) -> None:
    after, found = c.c_uint64(), c.c_uint32()
    status = board.next_word(word, 1, expected, board.KINDS[kind], after, found)
    if isinstance(answer, int):
        assert (status, after.value) == (0, answer)
        return
    name, *number = answer.split()
    assert status == getattr(board, name).status
    assert number in ([], [str(found.value)])


def test_the_largest_word_comes_of_a_full_time(board: Any) -> None:  # noqa: F811
    after, found = c.c_uint64(), c.c_uint32()
    full_time = board.KINDS["fulltime"]
    assert board.next_word(0x20FFFFFFFFFFDFFE, 255, 4094, full_time, after, found) == 0
    assert after.value == 0x20FFFFFFFFFFEFFF


def test_words_of_a_board(board: Any) -> None:  # noqa: F811
    """The first bad word is told; words of both layouts make one board."""
    with pytest.raises(board.BadWord) as raised:
        board.Board([0, 0, 0, 0xC00, 0, 0, 0, 0, 0xC00, 0, 0, 0])
    assert raised.value.told == 4
    goal, fresh = 0x2001000000005002, 0x2000000000000000
    words = [0x0000400000001402, goal, 0, fresh] + [0] * 8
    assert [*board.Board(words).words] == [goal, goal] + [fresh] * 10


def test_a_coefficient_that_is_cut(board: Any) -> None:  # noqa: F811
    assert board.play(model.CLUBS[:75].encode())[1][3] == ("Delta", 815)


# ---- orders

# Groups in which three clubs are level on points. In the first two of them are level head to head
# too, and are parted by their own matches; in the second all three are, and one has beaten another
# twice.
LEVEL = [
    "1-0 1-0 1-0 5-0 1-0 1-0 2-0 0-1 0-0 0-0 0-2 0-1",
    "1-0 0-1 1-0 3-1 1-0 2-0 0-1 0-1 0-1 3-0 0-1 0-1",
]


def match_with(state: int, home: int, away: int) -> model.Match:
    """A match in this state, with these goals."""
    match = model.Match()
    match.state, match.goals, match.reporter = state, [home, away], 1
    match.number = 1 + home + away + (state == model.FINISHED)
    return match


def level_board(scores: str, chance: random.Random) -> list[model.Match]:
    """These scores, those of club 4 drawn anew: a side without a goal still has none."""
    found = []
    for fixture, score in zip(model.FIXTURES, scores.split()):
        goals = [int(it) for it in score.split("-")]
        drawn = [it and chance.randint(1, 3) for it in goals] if 4 in fixture else goals
        found.append(match_with(model.FINISHED, *drawn))
    return found


def random_board(chance: random.Random) -> list[model.Match]:
    """Matches in all states, with few goals, so that many clubs are level, and some cards."""
    found, idle, most = model.fresh(), chance.randrange(3), chance.randint(1, 3)
    for at in range(12):
        if chance.randrange(6) >= idle:
            state = model.FINISHED if chance.randrange(8) >= idle else model.IN_PLAY
            match = match_with(state, chance.randint(0, most), chance.randint(0, most))
            match.yellows[chance.randrange(2)] = chance.choice([0, 0, 0, 1])
            match.expulsions[chance.randrange(2)] = chance.choice([0, 0, 0, 1])
            found[at] = match
    return found


def boards() -> Iterator[list[model.Match]]:
    """500 boards, always the same."""
    chance = random.Random(2021)
    for turn in range(500):
        yield level_board(LEVEL[turn % 3], chance) if turn % 3 < 2 else random_board(chance)


def test_order_of_500_boards_is_that_by_recursive_partition(board: Any) -> None:  # noqa: F811
    """And so are all numbers of the table, by both orders, which differ on some boards."""
    coefficients, differ = [it for _, it in model.ROSTER], 0
    for number, matches in enumerate(boards()):
        made, slots = board.Board([int(match.word(), 16) for match in matches]), []
        for order in "uefa", "away-in-tie":
            rows = made.standings(coefficients, order)
            table = [*model.places(matches, model.ROSTER, order == "away-in-tie")]
            for row, place in zip(rows, table, strict=True):
                mark = board.MARKS[row.mark]
                told = (row.slot, row.place, mark, row.played, row.wins, row.draws, row.losses)
                names = "slot place mark played won drawn lost".split()
                assert told == tuple(place[name] for name in names), f"board {number}, {order}"
                goals = row.goals_for, row.goals_against, row.points
                assert goals == tuple(
                    place[name] for name in ("goals_for", "goals_against", "points")
                )
            slots.append([row.slot for row in rows])
        differ += slots[0] != slots[1]
    assert differ > 0
