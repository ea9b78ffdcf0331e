"""A port of this machine."""

import contextlib
import random
import socket

# By their names the ports that tests of this process were given are theirs until it ends.
_GIVEN: list[socket.socket] = []


def is_reached(port: int) -> bool:
    """Whether somebody listens at a port."""
    with socket.socket() as one:
        return one.connect_ex(("127.0.0.1", port)) == 0


def free_port() -> int:
    """A free port that no other test is given, below those that the system hands out: a client
    that looks for a server which is down could else be handed its port."""
    while True:
        port, name = random.randint(20_000, 32_000), socket.socket(socket.AF_UNIX)
        with contextlib.suppress(OSError):
            name.bind(f"\0ucl-test-port-{port}")
            if not is_reached(port):
                _GIVEN.append(name)
                return port
        name.close()
