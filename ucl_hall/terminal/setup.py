"""The rows that a record begins with, by questions at a terminal."""

from collections.abc import Callable
from typing import TypeVar

from ucl_hall.faults import NotEntered
from ucl_hall.rows import GROUPS, ORDERS, SLOTS, Club, club_row, group_row
from ucl_hall.terminal.grammar import checked_coefficient, checked_name

Value = TypeVar("Value")


def rows_by_questions(letter: str = "A") -> bytes:
    """Asks for the group, which is likely to have this letter, and its clubs, until each answer is
    as it should be."""

    def asked(question: str, check: Callable[[str], Value], otherwise: str = "") -> Value:
        while True:
            text = input(question).strip() or otherwise
            try:
                return check(text)
            except NotEntered as fault:
                print(fault)

    group = asked(f"The group's letter on screens, A to H [{letter}]: ", _group, letter)
    print(
        "The order of clubs that are level: uefa is that of the Regulations; away-in-tie counts "
        "away goals among tied clubs too."
    )
    order = asked("Order, uefa or away-in-tie [uefa]: ", _order, "uefa")
    print(
        "Four clubs: by their slots matches have their numbers. A name has 1 to 20 letters without "
        "accents.\nA club's coefficient decides a tie last of all: 35.500 or, in thousandths, "
        "35500; 0 if it is not known."
    )
    rows = group_row(group, order)
    for slot in SLOTS:
        name = asked(f"Club of slot {slot}: ", checked_name)
        rows += club_row(slot, Club(name, asked("Its coefficient [0]: ", checked_coefficient, "0")))
    return rows


def _group(text: str) -> str:
    if len(text) == 1 and text.upper() in GROUPS:
        return text.upper()
    raise NotEntered("a letter from A to H")


def _order(text: str) -> str:
    if text in ORDERS:
        return text
    raise NotEntered("uefa or away-in-tie")
