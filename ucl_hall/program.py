"""How a program runs: where `ucl_live` is, what its input is, until a signal, to an end that is told
in one line."""

import asyncio
import contextlib
import os
import pathlib
import shutil
import signal
import subprocess
import sys
import threading
from collections.abc import AsyncIterator, Callable, Coroutine, Iterator
from typing import Any

from ucl_hall.faults import Fault, Over
from ucl_hall.text import printable

TOP = pathlib.Path(__file__).resolve().parent.parent
# The status after Ctrl-C.
INTERRUPTED = 130
# The most characters of a fault that are told.
LONGEST = 600


async def until_ended(work: Coroutine[Any, Any, int]) -> int:
    """Does work, and gives its status. Ctrl-C ends it, with 130, and SIGTERM, with 0: it then has
    the time to end what it has begun, and another signal does not cut that short."""
    task, loop = asyncio.ensure_future(work), asyncio.get_running_loop()
    ended: list[int] = []

    def end(status: int) -> None:
        if not ended:
            task.cancel()
        ended.append(status)

    loop.add_signal_handler(signal.SIGINT, end, INTERRUPTED)
    loop.add_signal_handler(signal.SIGTERM, end, 0)
    try:
        return await task
    except asyncio.CancelledError:
        if not ended:
            raise
        return ended[0]


async def read_input(read: Callable[[], bytes]) -> AsyncIterator[bytes]:
    """What a call gives that reads standard input, up to its end or where it can not be read.

    A thread calls it, for which nobody waits: a read of a pipe can not be ended.
    """
    came: asyncio.Queue[bytes] = asyncio.Queue()
    loop, room = asyncio.get_running_loop(), threading.Semaphore(4)

    def work() -> None:
        # The loop may be over meanwhile.
        with contextlib.suppress(RuntimeError):
            with contextlib.suppress(OSError):
                for piece in iter(read, b""):
                    loop.call_soon_threadsafe(came.put_nowait, piece)
                    room.acquire()
            loop.call_soon_threadsafe(came.put_nowait, b"")

    threading.Thread(target=work, daemon=True).start()
    while piece := await came.get():
        yield piece
        room.release()


@contextlib.contextmanager
def ending(name: str) -> Iterator[None]:
    """Ends the program of this name where it can go on no more, by one line and the fault's status;
    after Ctrl-C by none, and where nobody reads its output."""
    if signal.getsignal(signal.SIGINT) is signal.SIG_DFL:
        signal.signal(signal.SIGINT, signal.default_int_handler)
    try:
        yield
    except BrokenPipeError:
        os.dup2(os.open(os.devnull, os.O_WRONLY), 1)
        sys.exit(1)
    except (Fault, OSError) as fault:
        print(f"{name}: {printable(text_of(fault), LONGEST)}", file=sys.stderr)
        sys.exit(fault.status if isinstance(fault, Over) else 1)
    except (KeyboardInterrupt, EOFError):
        sys.exit(INTERRUPTED)


def text_of(fault: BaseException | None) -> str:
    """What is told of a fault."""
    if isinstance(fault, OSError) and fault.filename is not None:
        return f"{fault.filename}: {fault.strerror}"
    return str(fault) if isinstance(fault, Fault | OSError) else repr(fault)


def program_named(name: str) -> str:
    """The path of a program of ours; tests name another in its place, as by UCL_LIVE.

    Raises Over where it is not built, and says what to type.
    """
    named = os.environ.get(name.upper())
    if named:
        return named
    build = TOP / "build"
    if build.exists():
        words = [str(build), "--built", name]
        if subprocess.run(words, stdout=subprocess.DEVNULL, check=False).returncode != 0:
            raise Over(f"{name} is not built; type ./build, and then this line again")
        return str(TOP / "crates" / name / "out" / name)
    found = shutil.which(name)
    if found is None:
        raise Over(f"there is no {name} here or on the PATH")
    return found
