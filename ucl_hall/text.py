"""Text from outside: what comes of a file, of another machine or of a person goes to a screen
through here."""

import json
import sys
from collections.abc import Mapping

# The most characters of such a text that one line shows.
LONGEST = 200


def printable(text: str | bytes, most: int = LONGEST) -> str:
    """The text with a question mark in place of each character that is not printable.

    So no escape, no line end, no character that turns the writing direction and no lone surrogate
    gets through. Of bytes, those that are no UTF-8 count as not printable. What is longer than
    `most` characters is cut, and ends in three dots.
    """
    if isinstance(text, bytes):
        text = text[: 4 * most + 4].decode(errors="replace").replace("\ufffd", "?")
    if len(text) > most:
        text = text[: most - 3] + "..."
    return "".join(letter if letter.isprintable() else "?" for letter in text)


def members_of(line: str | bytes) -> Mapping[str, object]:
    """The members of an object of JSON; none of another text."""
    try:
        said = json.loads(line)
    except (ValueError, RecursionError):
        return {}
    return said if isinstance(said, dict) else {}


def warn(text: str) -> None:
    """Tells what is amiss, in a line on standard error."""
    print(printable(text), file=sys.stderr, flush=True)
