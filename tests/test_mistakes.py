"""docs/OPERATE.md: of each kind of mistake the events that it says to type take it back."""

import re

import pytest
from conftest import TOP, tabled, text_of
from model import CLUBS, entered, parsed, screen

# By the mistake what was typed, and what was meant: matches and events.
MEANT = {
    "the referee disallows a goal, or there was none": ("1 kickoff, 1 goal-home", "1 kickoff"),
    "a goal was entered for the home side, and is the visitors'": (
        "1 kickoff, 1 goal-home",
        "1 kickoff, 1 goal-away",
    ),
    "a goal was entered in the wrong match": (
        "1 kickoff, 2 kickoff, 1 goal-home",
        "1 kickoff, 2 kickoff, 2 goal-home",
    ),
    "a goal was taken away, and the referee gives it": (
        "1 kickoff, 1 goal-home, 1 disallow-home",
        "1 kickoff, 1 goal-home",
    ),
    "full time was entered, and the match goes on": (
        "1 kickoff, 1 goal-away, 1 fulltime",
        "1 kickoff, 1 goal-away",
    ),
    "a match was reopened, and is over": (
        "1 kickoff, 1 fulltime, 1 reopen",
        "1 kickoff, 1 fulltime",
    ),
    "a goal is too many in a match that is over": (
        "1 kickoff, 1 goal-home, 1 fulltime",
        "1 kickoff, 1 fulltime",
    ),
    "a goal is missing in a match that is over": (
        "1 kickoff, 1 fulltime",
        "1 kickoff, 1 goal-away, 1 fulltime",
    ),
}
PAIRS = re.findall(
    r"^\| (.+?) \| ((?:`\d+ [a-z ]+`(?:, then )?)+) \|$", text_of(TOP / "docs/OPERATE.md"), re.M
)
TYPED = {mistake: re.findall(r"`(\d+) (.+?)`", typed) for mistake, typed in PAIRS}


def numbered(events):
    """Rows of reporter 7 that enter these events, each a match and an event."""
    count, rows = dict.fromkeys(range(1, 13), -1), []
    for game, event in events:
        count[int(game)] += 1
        rows.append(f"7,{game},{count[int(game)]},{event}\n")
    return CLUBS + "".join(rows)


def taken_back(mistake):
    """The case of a mistake that events take back: their answers, and but for its version the table of what was meant."""
    typed, meant = ([event.split(" ") for event in events.split(", ")] for events in MEANT[mistake])
    text = numbered(
        typed + [(game, "-".join(event.split())) for game, event in TYPED.get(mistake, [])]
    )
    (_, told), table = entered(parsed(text)[1]), screen(entered(parsed(numbered(meant))[1])[0])
    return (
        "ucl_live",
        text + "screen,,,\n",
        told + re.sub("v[0-9]{5}", f"v{text.count(chr(10)) - 4:05d}", table),
    )


test_what_an_event_takes_back = tabled({mistake: taken_back(mistake) for mistake in MEANT})


@pytest.mark.quick
def test_each_line_of_the_page_is_tried():
    assert TYPED.keys() == MEANT.keys()
