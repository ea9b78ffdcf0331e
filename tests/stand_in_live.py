#!/usr/bin/python3
"""A stand-in for `ucl_live`, for development and tests of what is around it: the rules as tests/model.py has them, slow and unproved.

It takes the words of `ucl_live`, reads rows from standard input, and answers each before it reads on. It is never shipped.
"""

import os
import pathlib
import sys

sys.dont_write_bytecode = True
sys.path.insert(0, str(pathlib.Path(__file__).resolve().parent))
import model


def main():
    session, row, rest = model.Session(sys.argv[1:]), 0, b""
    try:
        while piece := os.read(0, 1 << 16):
            *lines, rest = (rest + piece).split(b"\n")
            output = []
            for line in lines:
                row += 1
                output += session.answers(row, line.decode(errors="surrogateescape"))
            write("".join(output))
        if rest:
            row += 1
            write("".join(session.answers(row, rest.decode(errors="surrogateescape"))))
        if len(session.roster) < 4:
            raise model.Fault(f"input refused 20: row {row + 1}")
    except model.Fault as fault:
        print(fault, file=sys.stderr)
        sys.exit(2 if str(fault).startswith("error") else 3)
    except BrokenPipeError:
        sys.exit(4)


def write(text):
    """Writes a text whole."""
    data = text.encode(errors="surrogateescape")
    while data:
        data = data[os.write(1, data) :]


if __name__ == "__main__":
    main()
