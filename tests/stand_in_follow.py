#!/usr/bin/python3
"""A stand-in for `ucl_follow`, for development and tests of what is around it: as tests/model.py has it, slow and unproved.

It takes the words of `ucl_follow`, and shows each newer board state before it reads on. It is never shipped.
"""

import os
import pathlib
import sys

sys.dont_write_bytecode = True
sys.path.insert(0, str(pathlib.Path(__file__).resolve().parent))
import model
from stand_in_live import write


def main():
    text, shown, rest = "", "", b""
    while piece := os.read(0, 1 << 16):
        *lines, rest = (rest + piece).split(b"\n")
        for line in lines:
            text += line.decode(errors="surrogateescape") + "\n"
            output = model.followed(sys.argv[1:], text)[1]
            write(output[len(shown) :])
            shown = output


main()
