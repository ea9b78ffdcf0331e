"""The screens by which `ucl_live` answers the rows of a group."""

import json
import subprocess
import sys
from collections.abc import Iterable
from typing import Any

import seasons

PROGRAM = seasons.FOLDER.parent.parent / "ucl_live"
Line = dict[str, Any]


def lines_of(group: seasons.Group, rows: Iterable[str]) -> list[str]:
    """The lines of JSON that tell a screen."""
    words = [str(PROGRAM), "--format", "json", "--group", group.letter]
    text = "".join(row + "\n" for row in rows)
    answers = subprocess.run(words, input=text, stdout=subprocess.PIPE, text=True)
    if answers.returncode != 0:
        sys.exit(f"group {group.letter} of {group.season}: no answer, for the reason above")
    return [line for line in answers.stdout.splitlines() if json.loads(line)["reply"] == "screen"]


def screens_of(group: seasons.Group, rows: Iterable[str]) -> list[Line]:
    """The same, as what they say."""
    return [json.loads(line) for line in lines_of(group, rows)]
