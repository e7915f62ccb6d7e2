#!/usr/bin/env python3
"""Cuts a log into parts that end where a line ends.

    parts.py LOG BYTES

prints a line for each part: its first byte, counted from 1 as `tail -c +N` does, how many bytes it has, and the number of its
first line. A part has BYTES bytes or the rest of its last line more. A line that is longer is one part.
"""

import os
import sys


def bounds(log, size):
    """Returns where the parts of a log begin and end, in bytes from 0."""
    found, start, length = [], 0, os.path.getsize(log)
    with open(log, "rb") as file:
        while start < length:
            file.seek(min(start + size, length) - 1)
            file.readline()
            found.append((start, file.tell()))
            start = file.tell()
    return found


def chunks(log, start, end):
    """Yields the bytes of a part, at most 1 MB at once."""
    with open(log, "rb") as file:
        file.seek(start)
        while start < end:
            chunk = file.read(min(1 << 20, end - start))
            if not chunk:
                raise EOFError(f"{log} is shorter than it was")
            start += len(chunk)
            yield chunk


def lines_in(log, start, end):
    """Returns how many lines end in a part."""
    return sum(it.count(b"\n") for it in chunks(log, start, end))


def first_lines(counts):
    """Returns the number of the first line of each part."""
    found = [1]
    for count in counts:
        found.append(found[-1] + count)
    return found[:-1]


def main(log, size):
    found = bounds(log, int(size))
    for (start, end), line in zip(found, first_lines(lines_in(log, *it) for it in found)):
        print(start + 1, end - start, line)


if __name__ == "__main__":
    main(*sys.argv[1:]) if len(sys.argv) == 3 else sys.exit("parts.py LOG BYTES")
