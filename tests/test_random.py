"""Random sheets, scripts, evenings, lines of answers and nights, against the rules in plain Python. What differs is made as small as it gets.

`--hypothesis-profile night` tries many more, and `--hypothesis-seed N` the same again.
"""

import contextlib
import random
import tempfile

import pytest
from conftest import Started, decoded, encoded
from hypothesis import given
from hypothesis import strategies as st
from model import CLUBS, FINISHED, IN_PLAY, SCHEDULED, WORDS, Session, followed, fresh, night, sheet
from test_followers import FIRST, SCREEN, in_edition, renamed

pytestmark = pytest.mark.limit(600)
NAMES = st.text(st.sampled_from('AZaz09 ,"\\~'), min_size=1, max_size=20)
ODD_NAMES = st.sampled_from(["", "x" * 21, "\u00e1", "\udcff", "\x7f", "\n"])
LIKELY = {SCHEDULED: ["kickoff"], IN_PLAY: WORDS[3:] + ["fulltime"], FINISHED: ["reopen"]}


def mostly(strategy, other, parts=20):
    """Mostly from one strategy, and one of so many times from the other."""
    return st.integers(1, parts).flatmap(lambda at: other if at == parts else strategy)


GOOD = st.sampled_from([0, 60_000, 60_000, 999_999])


@st.composite
def club_rows(draw):
    """Four club rows, whose names stand in quotes, and of which few are bad."""
    rows = []
    for slot in range(1, 5):
        name = draw(mostly(NAMES, ODD_NAMES, 100)).replace('"', '""')
        rows.append(f'club,{slot},"{name}",{draw(mostly(GOOD, st.just(1_000_000), 100))}\n')
    return rows


# The states, numbers, goals and yellows, and expulsions of matches: level at the end of a group, in the midst of it, and near all limits.
BOARDS = {
    "ended": ([FINISHED], [2, 9], [0, 1, 2], [0, 1]),
    "mixed": ([SCHEDULED, IN_PLAY, FINISHED], [2, 9], [0, 1, 2], [0, 1]),
    "limits": ([IN_PLAY, IN_PLAY, FINISHED], [9, 4093, 4094], [0, 62, 63], [0, 30, 31]),
}


@st.composite
def matches(draw):
    """Twelve matches that could be."""
    board = BOARDS[draw(st.sampled_from(sorted(BOARDS)))]
    states, numbers, goals, expulsions = map(st.sampled_from, board)
    found = fresh()
    for m in found:
        m.state = draw(states)
        if m.state != SCHEDULED:
            m.number, m.reporter = draw(numbers), draw(st.sampled_from([1, 255]))
            m.goals, m.yellows, m.expulsions = (
                [draw(each), draw(each)] for each in (goals, goals, expulsions)
            )
    return found


@st.composite
def word_rows(draw):
    """The word rows of twelve matches, few of which are bad."""
    rows = sheet(draw(matches())).splitlines(True)
    if draw(st.integers(1, 6)) == 6:
        at, bit = draw(st.integers(0, 11)), draw(st.integers(0, 63))
        word = rows[at].split(",")[2]
        flipped = f"{int(word, 16) ^ 1 << bit:016X}"
        others = [flipped, "f" * 16, "x" * 16, word[1:], word + ",", "," + word]
        rows[at] = rows[at].replace(word, draw(st.sampled_from(others)))
    return rows


PICK = st.tuples(st.integers(1, 12), st.integers(0, 120), st.integers(0, 12), st.integers(1, 3))
PICKS = st.one_of(
    st.lists(PICK, max_size=5),
    st.lists(PICK, min_size=30, max_size=50),
    st.lists(PICK, min_size=100, max_size=120),
)


def event_rows(picks):
    """Event rows from numbers: most are of the event that their match is likely to take, with the number that it has then."""
    found, rows = fresh(), []
    for game, pick, odd, reporter in picks:
        m = found[game - 1]
        words = WORDS if odd == 12 else LIKELY[m.state]
        word, expected = words[pick % len(words)], m.number
        if odd == 11:
            expected = pick * (500 if pick % 2 else 1)
        rows.append(f"{reporter},{game},{expected},{word}\n")
        if m.refusal(expected, word) is None:
            m.enter(reporter, word)
    return rows


GROUPS = st.sampled_from([[], ["--group", "B"], ["--group", "H"]])
ORDERS = st.sampled_from([[], ["--order", "away-in-tie"], ["--order", "uefa"]])
PIECES = st.sampled_from([1 << 20, 1, 7, 64, 4096])
ENDS = st.sampled_from(["\n", "\n", "\n", "\r\n", "\r"])


def cut(draw, text):
    """The text, or sometimes its beginning."""
    return text[: draw(st.integers(0, len(text)))] if draw(st.integers(1, 8)) == 8 else text


def fed(path, words, text, piece):
    """Runs a program that gets its input in pieces; what it writes goes to a file."""
    with tempfile.TemporaryFile() as output, Started([path, *words], stdout=output) as started:
        data = encoded(text)
        with contextlib.suppress(BrokenPipeError):
            for at in range(0, len(data), piece):
                started.write(decoded(data[at : at + piece]))
        ran = started.end()
        output.seek(0)
        return ran._replace(output=decoded(output.read()))


MORE_ROWS = ["bad\n", "\n", "1,1,0,kickoff\n", '"', "1,1,00000,reopen\n", "word,1,,\n"]


@given(st.data())
def test_scripts_and_sheets(program, data):
    """`feed`, `show`, and `night`, the last with its reporters by matches, so that its end does not depend on who is faster."""
    draw, word = data.draw, data.draw(st.sampled_from(["feed", "show", "night"]))
    picks = [
        (game, pick, odd, 2 - game % 2 if word == "night" and reporter < 3 else reporter)
        for game, pick, odd, reporter in draw(PICKS)
    ]
    rows = draw(club_rows()) + (draw(word_rows()) if word == "show" else event_rows(picks))
    if draw(st.integers(1, 6)) == 6:
        rows.insert(draw(st.integers(0, len(rows))), draw(st.sampled_from(MORE_ROWS)))
    text = cut(draw, "".join(row[:-1] + draw(ENDS) for row in rows))
    words = [] if word == "feed" else draw(GROUPS) + draw(ORDERS)
    assert fed(program("ucl_night"), [word, *words], text, draw(PIECES)) == night(word, words, text)


MENDS = [
    *("mend,5,,", "mend,6,,", "mend,7,,", '"mend","09","",""', "mend,12,,", "mend,,3,"),
    *("mend,,65535,", 'club,2,Real Madrid,"95000"'),
]
TITLES = "A,uefa,0 A,uefa,1 A,uefa,2 B,uefa,1 H,uefa,1 A,away-in-tie,1".split()
ODD_ROWS = [
    *("screen,,,", "words,,,", "matches,,,", "", "\r", "x", "1,1,0", "screen,1,,", "y" * 257),
    *("z" * 700, "word,1,,", '1,1,0,"kickoff', 'word,1,2000000000000000,"', "1,13,0,goal"),
    *('1,1,"0', "\ufeff1,1,0,kickoff", "club,2,Echo,5", "club,3,,5", *MENDS, "mend,0,,"),
    *(f"group,{title}" for title in TITLES),
]
AT, LINE_ENDS = st.integers(0, 70), st.sampled_from(["\n", "\n", "\r\n"])
SCREENS = st.sampled_from([[], ["--screens"]])
FORMATS = st.sampled_from([[], ["--format", "json"], ["--format", "text"]])


@given(st.data())
def test_evenings(program, data):
    """`ucl_live`, in all its forms, of one edition or more."""
    draw = data.draw
    words = draw(SCREENS) + draw(FORMATS) + draw(GROUPS) + draw(ORDERS)
    rows = draw(club_rows()) + event_rows(draw(PICKS))
    for odd, at in draw(st.lists(st.tuples(st.sampled_from(ODD_ROWS), AT), max_size=6)):
        rows.insert(min(max(at, 4) if at else 0, len(rows)), odd + "\n")
    lengths = st.sampled_from([1, 255, 256, 257])
    for at, length in draw(st.lists(st.tuples(AT, lengths), max_size=3)):
        if at < len(rows) and len(rows[at]) > 1:
            rows[at] = "\r" * (length - len(encoded(rows[at])) + 1) + rows[at]
    mark = "\ufeff" * draw(st.booleans())
    text = cut(draw, mark + "".join(row[:-1] + draw(LINE_ENDS) for row in rows))
    assert fed(program("ucl_live"), words, text, draw(PIECES)) == Session(words).of(text)


TAILS = st.sampled_from(["", "\n", "}\n", " \r\n"])
SHAPES = st.sampled_from([[], ["--format", "json"], ["--matches"]])


@given(st.data())
def test_followers(program, data):
    """`ucl_follow`, on lines of evenings of two groups, with mends, of which some are lost, doubled, turned round and torn."""
    draw = data.draw
    words = ["--format", "json"] + draw(st.sampled_from([["--screens"], ["--screens"], []]))

    def evening():
        rows = event_rows(draw(PICKS))
        for mend, at in draw(st.lists(st.tuples(st.sampled_from(MENDS), AT), max_size=4)):
            rows.insert(min(at, len(rows)), mend + "\n")
        session = Session(words + draw(GROUPS) + draw(ORDERS))
        return session.of(CLUBS + "screen,,,\n" + "".join(rows))[1].splitlines(True)

    lines = evening() + evening()
    some = [lines[at % len(lines)] for at in draw(st.lists(st.integers(0, 120), max_size=40))]
    cuts = st.tuples(st.integers(0, 40), st.integers(0, 1200), TAILS)
    for at, end, more in draw(st.lists(cuts, max_size=5)):
        if at < len(some):
            some[at] = some[at].rstrip("\n")[:end] + more
    words, text = draw(SHAPES) + draw(GROUPS) + draw(ORDERS), "".join(some)
    assert fed(program("ucl_follow"), words, text, draw(PIECES)) == followed(words, text)


# 20,000 bytes in lines of several lengths, none of which is a row or a moment.
LENGTHS = random.Random(0).choices([1, 20, 250, 300], k=400)
OTHERS = "".join("x" * length + "\n" for length in LENGTHS)[-20_000:]


def rows_of_sizes(sizes):
    """Bad rows of at least so many bytes each, and what `ucl_live` answers."""
    text, row = CLUBS, 5
    for size in sizes:
        lines = OTHERS[-max(2, size) :].splitlines(True)
        numbers = [row + at for at, line in enumerate(lines) if line != "\n"]
        answer = "".join(f"{number} refused 20 bad-row\n" for number in numbers)
        yield size, text + "".join(lines), answer
        text, row = "", row + len(lines)


def moments_of_sizes(sizes):
    """Lines of at least so many bytes, of which the last tells a moment of a later edition, and what `ucl_follow` shows."""
    for edition, size in enumerate(sizes, 1):
        moment = in_edition(edition, FIRST)
        yield size, OTHERS[len(OTHERS) - max(0, size - len(moment)) :] + moment, renamed(SCREEN)


@pytest.mark.parametrize(
    "name, texts", [("ucl_live", rows_of_sizes), ("ucl_follow", moments_of_sizes)]
)
def test_pieces_on_a_pipe(start, name, texts):
    """A piece of any size up to 20,000 bytes is answered before another byte is there, in whatever order the sizes come."""
    started = start(name)
    for size, text, answer in texts(random.sample(range(1, 20_001), 20_000)):
        assert started.answer(text, size, len(answer)) == answer, f"a piece of {size} bytes"
    assert started.end().output == ""
