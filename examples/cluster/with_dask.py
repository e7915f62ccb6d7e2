#!/usr/bin/python3
"""Runs a program on the parts of a log, on workers of Dask, and joins what it writes in the order of the parts.

    with_dask.py [--workers N | --scheduler HOST:PORT] [--bytes N] LOG ROWS ERRORS PROGRAM WORD..

ROWS and ERRORS then hold what `PROGRAM WORD.. <LOG` writes to standard output and standard error. Workers on other machines
need PROGRAM, and the folders of LOG and ROWS under the same names. The status is 0 or 1 as that of the program is. If a part
fails, or its worker dies four times, it says which one and why, with status 3, and there is no ROWS.
"""

import argparse
import os
import shutil
import subprocess
import sys
import tempfile
import uuid

import cloudpickle
import distributed

import parts

cloudpickle.register_pickle_by_value(parts)  # so that workers need no copy of parts.py


class PartFailed(Exception):
    """The program failed on a part."""


def convert(words, log, start, end, out):
    """Runs the program on a part, on a worker. Returns its status; its outputs are then in OUT.rows and OUT.errors.

    They get these names when they are complete. What a worker that died left is never read: its files have other names.
    """
    made = f"{out}.{uuid.uuid4().hex}"
    with open(f"{made}.rows", "wb") as rows, open(f"{made}.errors", "wb") as errors:
        running = subprocess.Popen(words, stdin=subprocess.PIPE, stdout=rows, stderr=errors)
        try:
            for chunk in parts.chunks(log, start, end):
                running.stdin.write(chunk)
            running.stdin.close()
        except BrokenPipeError:
            pass  # its status says why it ended
        status = running.wait()
    if status not in (0, 1):
        with open(f"{made}.errors", encoding="utf-8", errors="replace") as file:
            why = (file.read().splitlines() or ["it wrote no error"])[-1]
        raise PartFailed(f"bytes {start} to {end} of {log}: {words[0]} ended with status {status}: {why}")
    for name in ("rows", "errors"):
        os.replace(f"{made}.{name}", f"{out}.{name}")
    return status


def words_of(program, words, number, line):
    """Returns the words for a part: its first line's number, and a header in the first part only."""
    kept = [it for it in words if it != "--header" or number == 0]
    return [program, "--first-line", str(line), *kept]


def join(folder, lines, rows, errors):
    """Writes the outputs of all parts in their order. ROWS and ERRORS get their names when they are complete."""
    with open(f"{folder}/rows", "wb") as all_rows, open(f"{folder}/errors", "wb") as all_errors:
        for number in range(len(lines)):
            with open(f"{folder}/{number}.rows", "rb") as file:
                shutil.copyfileobj(file, all_rows, 1 << 20)
            with open(f"{folder}/{number}.errors", "rb") as file:
                shutil.copyfileobj(file, all_errors, 1 << 20)
            os.remove(f"{folder}/{number}.rows")
    os.replace(f"{folder}/errors", errors)
    os.replace(f"{folder}/rows", rows)


def run(client, given, folder):
    """Runs the program on all parts, and returns the status."""
    log = os.path.abspath(given.log)
    bounds = parts.bounds(log, given.bytes) or [(0, 0)]  # the header of an empty log is written too
    counts = client.map(lambda it: parts.lines_in(log, *it), bounds, pure=False)
    lines = parts.first_lines(client.gather(counts))
    tasks = [client.submit(convert, words_of(given.program, given.words, number, line), log, *bounds[number], f"{folder}/{number}", pure=False)
             for number, line in enumerate(lines)]
    statuses = client.gather(tasks)
    join(folder, lines, given.rows, given.errors)
    return max(statuses, default=0)


def main():
    words = argparse.ArgumentParser(description=__doc__, formatter_class=argparse.RawDescriptionHelpFormatter)
    words.add_argument("--workers", type=int, default=4)
    words.add_argument("--scheduler")
    words.add_argument("--bytes", type=int, default=64 << 20)
    for name in ("log", "rows", "errors", "program"):
        words.add_argument(name)
    words.add_argument("words", nargs=argparse.REMAINDER)
    given = words.parse_args()
    how = {"n_workers": given.workers, "threads_per_worker": 1, "processes": True, "dashboard_address": "127.0.0.1:0"}
    where = {"address": given.scheduler} if given.scheduler else how
    with tempfile.TemporaryDirectory(dir=os.path.dirname(os.path.abspath(given.rows))) as folder, distributed.Client(**where) as client:
        try:
            return run(client, given, folder)
        except (PartFailed, distributed.KilledWorker, OSError, EOFError) as error:
            print(f"with_dask.py: {type(error).__name__}: {error}", file=sys.stderr)
            return 3


if __name__ == "__main__":
    sys.exit(main())
