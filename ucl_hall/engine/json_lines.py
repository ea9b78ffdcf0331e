"""Lines of JSON, validated here and nowhere else, by what `answers` says of their members.

Lines of the own `ucl_live` and lines of another machine go through it alike.
"""

import dataclasses
import functools
import json
import re
from collections.abc import Callable, Mapping, Sequence
from typing import Any, TypeVar, get_args, get_origin, get_type_hints

from ucl_hall.engine.answers import KINDS, Answer, LeftOut, Moment, Reply

# The most bytes of a line that is read at all.
LONGEST_LINE = 8_192
Said = Mapping[str, object]
Part = TypeVar("Part")
Read = Callable[[Said], Any]


class NoAnswer(ValueError):
    """A line that is no answer, and which part of it makes it none."""


def answer_of(line: bytes) -> Answer:
    """The answer that a line is, with or without its line end.

    Raises NoAnswer where the line is none, whatever else it is.
    """
    line = line.rstrip(b"\r\n")
    if len(line) > LONGEST_LINE:
        raise NoAnswer(len(line))
    try:
        said = json.loads(line)
    except (ValueError, RecursionError) as error:
        raise NoAnswer from error
    reply = said.get("reply") if isinstance(said, dict) else None
    if not isinstance(reply, str) or reply not in KINDS:
        raise NoAnswer(reply)
    kind: Any = KINDS[reply]
    answer: Answer = kind(*[read(said) for read in _readers(kind)], line)
    if isinstance(answer, Moment):
        numbers = [it.match for it in answer.matches] + [it.place for it in answer.table]
        if numbers != [*range(1, 13), *range(1, 5)]:
            raise NoAnswer(numbers)
    return answer


def line_of(reply: str, **members: object) -> bytes:
    """A line of our own, in JSON as `ucl_live` writes it, with no line end."""
    said: dict[str, object] = {"reply": reply, **members}
    return json.dumps(said, sort_keys=True, separators=(",", ":")).encode()


def reply_of(answers: Sequence[Answer]) -> Reply:
    """The reply to a row, of all its answers in their order.

    Raises NoAnswer where these are no answers to one row.
    """
    left_out = tuple(answer for answer in answers if isinstance(answer, LeftOut))
    rest = [answer for answer in answers if not isinstance(answer, LeftOut)]
    if not rest or len({answer.row for answer in rest}) != 1:
        raise NoAnswer(answers)
    first, last = rest[0], rest[-1]
    screen = last if isinstance(last, Moment) else None
    return Reply(first, screen, left_out)


@functools.cache
def _readers(kind: Any) -> list[Read]:
    """How the members of a kind of object are read, each from the object that it stands in."""
    hints = get_type_hints(kind, include_extras=True)
    readers = [_reader(name, hint) for name, hint in hints.items()]
    return [read for read in readers if read is not None]


def _part_of(kind: Any, said: Said) -> Any:
    return kind(*[read(said) for read in _readers(kind)])


def _reader(name: str, hint: Any) -> Read | None:
    """How a member is read; None where an answer has it of itself."""
    allowed: tuple[Any, ...] = getattr(hint, "__metadata__", ())
    types = get_args(hint)
    if not allowed:
        kind = types[0] if types else hint
        if not dataclasses.is_dataclass(kind):
            return None
        # The members of an object may stand beside those of what it is in.
        return lambda said: _part_of(kind, said) if name in said or not types else None
    inner = get_args(types[0])
    if get_origin(types[0]) is tuple:
        part: Callable[[Any], Any] = functools.partial(part_of, inner[0])
        each = part if len(allowed) == 1 else _check(name, allowed[1])
        return lambda said: tuple(map(each, _list(said.get(name), name, allowed[0])))
    check = _check(name, allowed[0])
    if type(None) in inner:
        return lambda said: check(said[name]) if name in said else None
    return lambda said: check(said.get(name))


def part_of(kind: type[Part], said: object) -> Part:
    """An object of this kind, by what its members are annotated by.

    Raises NoAnswer where it is none.
    """
    if not isinstance(said, dict):
        raise NoAnswer(said)
    part: Part = _part_of(kind, said)
    return part


def _list(value: object, name: str, count: int) -> list[object]:
    if not isinstance(value, list) or len(value) != count:
        raise NoAnswer(name)
    return value


def _check(name: str, allowed: Any) -> Callable[[object], object]:
    """Gives a value that is in a range, has a pattern, or is one of some texts."""
    type_ = int if isinstance(allowed, range) else str
    is_in = allowed.fullmatch if isinstance(allowed, re.Pattern) else allowed.__contains__

    def checked(value: object) -> object:
        if type(value) is not type_ or not is_in(value):
            raise NoAnswer(name)
        return value

    return checked
