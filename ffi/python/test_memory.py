"""Shows what safelorim does when memory runs out, and that it frees what it takes: python3 test_memory.py LIBRARY.

LIBRARY is checks/refuse.c, compiled; checks/ffi runs this. The file runs itself with it preloaded: first for each call to
count its requests for memory, and then once for each of these, which is refused. The call must then raise `MemoryError` or
return what it always returns. PYTHONMALLOC has Python ask the C library for each block. So most of the requests are
Python's own, a few are those of libjiter. A parser must have lost nothing: the call that failed is made again.
"""

import ctypes
import os
import subprocess
import sys
import tempfile

# A request of so many bytes is a mark: refuse.c writes its counts, and lets it fail.
MARK = 1296126539
TEXT = '{"k": [1, "t\\n", {}, 9223372036854775808],\n "l": "' + "0123456789" * 60 + '"}'
VALUE = {"k": [1, "t\n", {}, 9223372036854775808], "l": "0123456789" * 60}


def load():
    return safelorim.loads(TEXT)


def load_unique():
    return safelorim.loads(TEXT, unique=True)


def load_partial():
    return safelorim.loads(TEXT[:-1], partial="trailing-strings")


def load_lines():
    values, errors = safelorim.loads_lines(TEXT.replace("\n", "") + "\n[1,]")
    return values[0] if errors[2].kind == 18 else errors


def repeated():
    try:
        safelorim.loads('{"a": 1, "\\u0061": [2]}', unique=True)
    except safelorim.JsonError as error:
        return VALUE if error.cause == 'Detected duplicate key "a"' else error


def again(call, *words):
    """Makes a call, once more if memory ran out."""
    try:
        return call(*words)
    except MemoryError:
        return call(*words)


def chunks():
    parser = safelorim.Parser(partial="on")
    for at in range(0, len(TEXT), 200):
        again(parser.push, TEXT[at : at + 200])
        again(parser.value)
    again(parser.error)
    return again(parser.finish)


# The calls, and how many refused requests must raise `MemoryError` at least.
CALLS = {load: 2, load_unique: 2, load_partial: 2, load_lines: 2, repeated: 2, chunks: 1}


def outcome(call):
    try:
        return "value" if call() == VALUE else "another value"
    except MemoryError:
        return "memory"
    except Exception as error:
        return repr(error)


def mark(malloc):
    """Makes a mark, also if a request of Python's own is refused meanwhile."""
    try:
        malloc(MARK)
    except (MemoryError, ctypes.ArgumentError):
        malloc(MARK)


def run_once(name):
    """Makes a call between two marks and says what came of it; then a hundred times before the next mark."""
    malloc = ctypes.CDLL(None).malloc
    malloc.argtypes, malloc.restype = [ctypes.c_size_t], ctypes.c_void_p
    call = globals()[name]
    for _ in range(3):
        outcome(call)
    mark(malloc)
    said = outcome(call)
    mark(malloc)
    for _ in range(100):
        outcome(call)
    mark(malloc)
    print(said)


def run_refused(library, name, number):
    """Runs a call with this request refused. Returns its outcome and the lines of refuse.c."""
    environment = [f"LD_PRELOAD={library}", f"REFUSE={number}", "PYTHONHASHSEED=0", "PYTHONMALLOC=malloc"]
    words = ["sh", "-c", 'exec env "$@" 3>&0 0</dev/null', "", *environment]
    with tempfile.TemporaryFile("w+") as counts:
        words += [sys.executable, os.path.abspath(__file__), "--call", name]
        ran = subprocess.run(words, stdin=counts, stdout=subprocess.PIPE, text=True)
        counts.seek(0)
        return ran.stdout.strip() or f"status {ran.returncode}", counts.read().split("\n")


def marks(lines):
    """Returns the number of requests and of blocks in use at each mark."""
    return [(int(it.split()[0]), int(it.split()[2])) for it in lines if it.count(" ") == 2][:3]


def problems(library, call, least):
    name = call.__name__
    said, lines = run_refused(library, name, 0)
    (first, _), (last, before), (_, after) = marks(lines)
    if said != "value":
        return [f"{name}: {said}"]
    found = [f"{name}: {after - before} blocks are kept by 100 calls"] if after - before >= 50 else []
    outcomes = [run_refused(library, name, number)[0] for number in range(first + 1, last + 1)]
    for number, it in enumerate(outcomes, first + 1):
        if it not in ("value", "memory"):
            found.append(f"{name}: request {number} refused: {it}")
    if outcomes.count("memory") < least:
        found.append(f"{name}: of {len(outcomes)} refused requests {outcomes.count('memory')} raised MemoryError")
    return found


def main():
    found = [it for call, least in CALLS.items() for it in problems(sys.argv[1], call, least)]
    print("\n".join(found))
    return 1 if found else 0


if __name__ == "__main__":
    if sys.argv[1] == "--call":
        import safelorim

        run_once(sys.argv[2])
    else:
        sys.exit(main())
