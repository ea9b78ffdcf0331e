"""Why something is not entered, or a program ends: each is told by its text, in one line. The
braces of a text get what the fault is raised with."""

import errno
from typing import TypeVar

from ucl_hall.refusals import ADVICE

# What says that there is no room: on the disk, and for a file of this size.
NO_ROOM = (errno.ENOSPC, errno.EDQUOT)
FULL = (*NO_ROOM, errno.EFBIG)


class Fault(Exception):
    """What is told by its text, and is never a traceback."""

    text = "{}"

    def __init__(self, *values: object) -> None:
        super().__init__(self.text.format(*values))


class NotEntered(Fault):
    """Nothing of what was sent is in the record."""


class MaybeEntered(Fault):
    """The row may be in the record or not: nobody can tell before the match is looked at."""

    text = "{}: it may be in the record: look at the match before you type again"


class Over(Fault):
    """The program can not go on, and ends with this status."""

    status = 1


class BadArgument(Over):
    """The command line says what is not so."""

    status = 2


Kind = TypeVar("Kind", bound=Fault)


def kind_of(fault: type[Kind], text: str) -> type[Kind]:
    """A kind of this fault, which has a text of its own."""
    kind: type[Kind] = type(fault.__name__, (fault,), {"text": text})
    return kind


# ---- nothing is entered


class Dropped(NotEntered):
    """An edition has begun since."""

    def __init__(self, edition: int) -> None:
        super().__init__("dropped: " + ADVICE["dropped"].typed.format(edition=edition))


class Outdated(NotEntered):
    """It would do something else by now than was agreed upon."""

    text = "nothing is appended: rows have come since, so look at it again"


class NotWritten(NotEntered):
    """The system did not take it."""

    text = "{}: nothing was entered"

    def __init__(self, error: OSError) -> None:
        super().__init__("the disk is full" if error.errno in NO_ROOM else error.strerror)


# It was asked about, and is not in: from then on it is never entered.
Lost = kind_of(NotEntered, ADVICE["lost"].typed)
# Another program has the lock of a record, and keeps it.
Held = kind_of(NotEntered, "another program holds the lock of {}: nothing was entered")
# A node has done nothing of what it was asked.
NotDone = kind_of(NotEntered, "etcd says: {}: nothing was entered")
# How many events a line enters, and how many one transaction takes.
TooMany = kind_of(
    NotEntered,
    "these are {} events, and etcd takes {} at once: nothing was entered; type some of them",
)

# ---- nobody knows whether it is entered


class CutOff(MaybeEntered):
    """A part of it alone had room."""

    def __init__(self) -> None:
        super().__init__("the disk is full, and the row was cut off")


class DiskFails(MaybeEntered):
    """The system can not say whether it is on the disk."""

    def __init__(self, error: OSError) -> None:
        super().__init__(f"the disk fails: {error.strerror}")


class MaybeDone(MaybeEntered):
    """An answer of a node was lost, and the next says that it does nothing."""


# ---- the program ends: its records

Replaced = kind_of(
    Over,
    "{} has become another file, or shorter; a record only grows, so look what was done to it, and "
    "start again",
)
OnShare = kind_of(Over, "{} is on a share: keep the record on a disk of this machine")
# The number of a line, and the most bytes of a row.
LongLine = kind_of(Over, "line {} has more than {} bytes, so it is no row")
# The rows of a record are none, or `ucl_live` fails: its name, and the fault.
NoBoard = kind_of(Over, "{} has no board, or ucl_live failed: {}")
# A library, and the package of Debian.
NotInstalled = kind_of(Over, "{} is not installed; Debian has it in {}")

# ---- who may ask etcd

BadAddress = kind_of(
    BadArgument,
    "{} is no address, as etcd://HOST:PORT,HOST:PORT/NAME or etcd://HOST:PORT/NAME?access=FILE",
)
PasswordInAddress = kind_of(
    BadArgument,
    'an address has no name and no password: put them into a file, as user = "board" and '
    'password = "..", and give its name behind the address, as ?access=FILE',
)
Readable = kind_of(Over, "others can read {0}: chmod 600 {0}")
# A file says nothing of who may ask: its name, and why.
NoAccess = kind_of(
    Over, '{}: it takes user, password, ca, certificate and key, as user = "board": {}'
)
# A warning.
Unprotected = kind_of(
    Fault,
    "{} is asked without TLS: whoever is on this network can read and change the record; give ca, "
    "certificate and key in a file, by ?access=FILE",
)

# ---- records in etcd

# The nodes, and what was met last.
Unreached = kind_of(Over, "no majority of {} answers: {}")
# A node, its cluster, and that of the nodes before.
OtherCluster = kind_of(
    Over,
    "{} is of cluster {}, and this record is in cluster {}: give the nodes of one cluster, and "
    "start again",
)
NoRecord = kind_of(Over, "there is no record {} in etcd")
HalfBegun = kind_of(
    Over,
    "the beginning of {0} in etcd was cut off: begin it again from the same file, or remove it by "
    "`etcdctl del --prefix {0}`",
)
# The key of the layout, and what it says.
OtherLayout = kind_of(
    Over,
    "{} in etcd says {}, so this record is of another version: there print its rows by "
    "ucl_reporter --rows, and here begin another record --from them",
)


class InEtcd(Over):
    """A key in etcd is not as it was written."""

    def __init__(self, key: str | bytes, *values: object) -> None:
        super().__init__(key.decode(errors="replace") if isinstance(key, bytes) else key, *values)


_BRING_BACK = (
    ", and a record only grows: bring back the snapshot of etcd, or begin another record --from "
    "the rows that you have"
)
# A key among the rows is not of this program.
StrangeKey = kind_of(
    InEtcd,
    "{0} in etcd is no row of this record: `etcdctl del {0}` if nobody needs it, and start again",
)
# A key, and the most bytes of a row.
TooLong = kind_of(
    InEtcd,
    "{0} in etcd has more than {1} bytes, so it is no row: `etcdctl del {0}`, and start again",
)
# A row that was there, or is before others that are.
Gap = kind_of(InEtcd, "{} is missing in etcd" + _BRING_BACK)
# A row that was written twice.
ChangedRow = kind_of(InEtcd, "{} in etcd was changed" + _BRING_BACK)

# ---- children

# A program that can not be started, and why; one that has ended by itself, and how it failed; and
# one that is killed by a signal as often as it is started.
NotStarted = kind_of(Over, "{}: {}")
Ended = kind_of(Over, "{}: {}")
Killed = kind_of(Over, "{} is killed by signal {} again and again")
# In so many seconds.
Late = kind_of(Over, "ucl_live has not answered in {:g} seconds")
# A program says what none of this version says.
Unknown = kind_of(Over, "this ucl_live is of another version: {!r}")
UnknownShown = kind_of(Over, "this ucl_follow is of another version: {!r}")


class Failed(Over):
    """A program has ended by itself, with these last words or with this status."""

    def __init__(self, said: str, status: int | None) -> None:
        super().__init__(said or f"it has ended with status {status}")
