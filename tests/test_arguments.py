"""The words of the command line: a good line with one fault in any place is refused by every program, which then has written nothing.

What a program takes stands here as the papers say it: a subcommand and whole options, each at most once, with one value or none, in any order.
"""

import itertools
from typing import NamedTuple

import pytest
from conftest import EXAMPLES, Has, text_of

GROUP, ORDER, FORMAT = ("--group", "B"), ("--order", "away-in-tie"), ("--format", "json")
READINGS, SCREENS, MATCHES = ("--readings", "30"), ("--screens",), ("--matches",)
SCRIPT, SHEET, LINES = "group_a_2021_night.csv", "two_matches_sheet.csv", "followed.jsonl"


class Takes(NamedTuple):
    """What a program takes: a subcommand or none, options, and the example that it reads."""

    program: str
    subcommand: tuple
    options: list
    example: str


ALL = [
    Takes("ucl_night", ("feed",), [], SCRIPT),
    Takes("ucl_night", ("show",), [GROUP, ORDER], SHEET),
    Takes("ucl_night", ("night",), [GROUP, ORDER, READINGS], "away_goals_night.csv"),
    Takes("ucl_live", (), [GROUP, ORDER, SCREENS, FORMAT], SCRIPT),
    Takes("ucl_follow", (), [GROUP, ORDER, FORMAT], LINES),
    Takes("ucl_follow", (), [GROUP, ORDER, MATCHES], LINES),
]
NAMES = [
    " ".join([it.program, *it.subcommand, *(option[0] for option in it.options)]) for it in ALL
]


def lines(takes):
    """Each good line with some of the options, in each order of them."""
    for count in range(len(takes.options) + 1):
        for options in itertools.permutations(takes.options, count):
            yield list(takes.subcommand), [list(option) for option in options]


def words_of(subcommand, options):
    """A line as words."""
    return subcommand + [word for option in options for word in option]


def faulty(subcommand, options):
    """A good line with one fault, in each place, by what the fault is."""
    words = words_of(subcommand, options)
    for place in range(len(words) + 1):
        before, after = words[:place], words[place:]
        for odd in "", b"\xff", b"--\xff", "-", "--n", "-x", "other", " ":
            yield f"{odd!r} at {place}", [*before, odd, *after]
        if after:
            word, later = after[0], after[1:]
            # Of a number a prefix is a number.
            for end in range(len(word)) if not word.isdigit() else [0]:
                # Two strokes alone end the options of a line.
                if word[:end] != "--":
                    yield f"{word!r} cut to {word[:end]!r}", [*before, word[:end], *later]
            other = word + "x" if word.isdigit() else word.swapcase()
            yield f"{word!r} with another case", [*before, other, *later]
            yield f"{word!r} with a byte more", [*before, word.encode() + b"\xff", *later]
            yield f"{word!r} with a letter more", [*before, word + "s", *later]
    for option in options:
        for place in range(len(options) + 1):
            doubled = [*options[:place], option, *options[place:]]
            yield f"{option[0]} twice", words_of(subcommand, doubled)
        others = [it for it in options if it is not option]
        yield f"{option[0]} with an empty value", words_of(subcommand, [*others, [option[0] + "="]])
        if subcommand:
            yield f"{option[0]} before the subcommand", [*option, *words_of(subcommand, others)]
        if len(option) == 2:
            yield f"{option[0]} without its value", words_of(subcommand, [*others, [option[0]]])
    if subcommand:
        yield "the subcommand twice", subcommand + words
        yield "no subcommand", words[1:]


@pytest.mark.parametrize("takes", ALL, ids=NAMES)
def test_a_good_line_is_taken_in_each_order(run, takes):
    """With the value of an option as a word of its own, or after an equals sign; and it is the same line in each order."""
    text, outputs = text_of(EXAMPLES / takes.example), {}
    for subcommand, options in lines(takes):
        joined = [["=".join(option)] for option in options]
        for words in words_of(subcommand, options), words_of(subcommand, joined):
            ran = run(takes.program, *words, input=text)
            assert ran.status == 0 and "error" not in ran.errors, words
            # What a reader of a night sees depends on the threads, and how the night ends does not.
            if "FINAL\n" in ran.output:
                ran = ran._replace(output=ran.output[ran.output.index("FINAL\n") :])
            asked = frozenset(tuple(option) for option in options if tuple(option) != READINGS)
            assert outputs.setdefault(asked, ran) == ran, words
    assert len(outputs) == 2 ** sum(option != READINGS for option in takes.options)


@pytest.mark.parametrize("takes", ALL, ids=NAMES)
def test_a_line_with_one_fault_is_refused(run, takes):
    """Each line without an option, with each one, and with all."""
    text = text_of(EXAMPLES / takes.example)
    tried = [
        it for it in lines(takes) if len(it[1]) < 2 or list(map(tuple, it[1])) == takes.options
    ]
    for subcommand, options in tried:
        for fault, words in faulty(subcommand, options):
            ran = run(takes.program, *words, input=text)
            is_text = all(isinstance(word, str) for word in words)
            told = Has("error: ") if is_text else "error: a word of the command line is not UTF-8\n"
            assert ran == (2, "", told), (fault, words)
