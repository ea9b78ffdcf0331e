"""A night in Python: a whole script is played, and the closing screen written as `ucl_night night`
writes it.

    UCLBOARD_LIBRARY=FOLDER/libuclboard.so python3 night.py A < ../first_night.csv
"""

import sys

import uclboard


def main() -> None:
    group, order = (sys.argv[1:] + ["A", "uefa"][len(sys.argv[1:]) :])[:2]
    board, clubs, replies = uclboard.play(sys.stdin.buffer.read())
    if board.version() != sum(reply.status == 0 for reply in replies):
        raise ValueError("the version is not the number of events that were entered")
    print("FINAL\n" + board.screen(clubs, group, order), end="")


try:
    main()
except uclboard.Refused as refused:
    sys.exit(f"night: {refused}")
