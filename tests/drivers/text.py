"""Texts of files and pipes, where a byte that is no UTF-8 stands as Python's surrogate escape."""

import os
import pathlib
import re

TOP = pathlib.Path(__file__).resolve().parent.parent.parent
EXAMPLES = TOP / "examples"


def decoded(data: bytes) -> str:
    """Bytes as text."""
    return data.decode(errors="surrogateescape")


def encoded(text: str) -> bytes:
    """Text as bytes."""
    return text.encode(errors="surrogateescape")


def text_of(path: str | os.PathLike[str]) -> str:
    """What a file has, line ends as they are."""
    return decoded(pathlib.Path(path).read_bytes())


def append_to(path: str | os.PathLike[str], text: str) -> None:
    """Writes behind what a file has, as who takes no lock does."""
    with open(path, "ab") as file:
        file.write(encoded(text))


def lines_to_type(page: str | os.PathLike[str]) -> dict[str, str]:
    """The lines that a page has one type, by what stands in bold above each."""
    return dict(re.findall(r"^\*\*(.+?)\*\*(?:.+\n)+\n((?:    .+\n)+)", text_of(page), re.M))
