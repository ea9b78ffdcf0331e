"""A mirror: what other servers show, from their lines as they came, in any order and repeated.

The lines of a group are `ucl_follow`'s to judge, and what that shows is shown here: ever newer
moments, whichever of several sources was first. No line of screens says that a board is there now:
pulses do, and each says at which moment the board is.
"""

import time
from collections.abc import Mapping

from ucl_hall.engine.answers import Reply
from ucl_hall.engine.follow import Follow
from ucl_hall.rows import GROUPS, MATCHES
from ucl_hall.text import members_of, printable
from ucl_hall.web.server import Server
from ucl_hall.web.shown import Shown

# How long a pulse holds, in seconds.
HOLDS = 3.0
Said = Mapping[str, object]
Age = tuple[int, int]


class MirroredGroup(Shown):
    """A group of which other servers tell. `evenings` has the matches of each group's, by whatever
    they say last."""

    def __init__(self, letter: str, follow: Follow, evenings: Mapping[str, list[int]]) -> None:
        super().__init__(letter, follow)
        self.follow, self._evenings = follow, evenings
        # The last pulse: edition and version of the board, and when it came; and the latest of all.
        self._pulse: Age = (-1, -1)
        self._latest, self._pulsed_at = self._pulse, 0.0
        # When what is shown was last known to be the board's, and when this began.
        self._known_at, self._begun_at = 0.0, time.monotonic()
        follow.listen(lambda _: self._note())

    @property
    def silence(self) -> int:
        """For how many seconds no pulse has said that the board is there, and at this moment."""
        past = time.monotonic() - (self._known_at or self._begun_at)
        return 0 if self._known_at and past <= HOLDS and not self.fault else 1 + int(past)

    def hear(self, age: Age) -> None:
        """Takes a pulse: the board is there, at this edition and version."""
        self._pulse, self._pulsed_at = age, time.monotonic()
        self._latest = max(self._latest, age)
        self._note()

    def tonight(self) -> list[int] | None:
        """The matches of the evening, where the other server names them."""
        return self._evenings.get(self.letter) or None

    def more(self) -> dict[str, object]:
        return {"silence": self.silence}

    def _note(self) -> None:
        """Notes that what is shown is the board's, if the last pulse says so, and no later one was
        ever told of: a line may be lost, and a source may be behind."""
        if self.follow.has_shown and self._pulse == self._latest == self.moment.age:
            self._known_at = self._pulsed_at


class Mirror:
    """The groups of which lines tell, as a server shows them, under its own title or theirs."""

    def __init__(self, server: Server, groups: list[Shown], program: str) -> None:
        self._server, self._groups, self._program = server, groups, program
        self._has_title = bool(server.title)
        self._evenings, self._known = dict[str, list[int]](), dict[str, MirroredGroup]()

    async def take(self, line: bytes) -> None:
        """Takes a line of any source: one that is none of a feed changes nothing."""
        said = members_of(line)
        letter = said.get("group")
        if said.get("reply") == "pulse":
            self._hear(said)
        elif said.get("reply") == "hall":
            self._name(said)
        elif _is_letter(letter):
            group = await self._group(str(letter))
            await group.follow.feed(line)

    async def close(self) -> None:
        """Ends the children."""
        for group in self._known.values():
            await group.follow.end()

    async def _group(self, letter: str) -> MirroredGroup:
        if letter not in self._known:
            follow = Follow(self._program, letter)
            self._known[letter] = group = MirroredGroup(letter, follow, self._evenings)
            follow.listen(lambda reply: self._show(group, reply))
            await follow.start()
        return self._known[letter]

    def _show(self, group: MirroredGroup, reply: Reply) -> None:
        """Sends a moment to who looks on; the first of a group changes what there is."""
        if group in self._groups:
            self._server.screens.send(group.letter, reply.answer.line)
        else:
            self._groups.append(group)
            self._groups.sort(key=lambda it: it.letter)
            self._server.tell_groups()

    def _hear(self, said: Said) -> None:
        moments = said.get("moments")
        for letter, age in moments.items() if isinstance(moments, dict) else ():
            if letter in self._known and _is_age(age):
                self._known[letter].hear((age[0], age[1]))

    def _name(self, said: Said) -> None:
        title, groups, tonight = (said.get(name) for name in ("title", "groups", "tonight"))
        before = self._server.title, {**self._evenings}
        if isinstance(title, str) and not self._has_title:
            self._server.title = printable(title)
        if isinstance(groups, str) and isinstance(tonight, dict):
            for letter in filter(_is_letter, groups):
                named = tonight.get(letter)
                matches = [it for it in MATCHES if isinstance(named, list) and it in named]
                self._evenings[letter] = matches
        if (self._server.title, self._evenings) != before:
            self._server.tell_groups()


def _is_letter(value: object) -> bool:
    return isinstance(value, str) and len(value) == 1 and value in GROUPS


def _is_age(value: object) -> bool:
    return isinstance(value, list) and [type(it) for it in value] == [int, int]
