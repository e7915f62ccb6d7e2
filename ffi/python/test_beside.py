"""Compares safelorim with Python's json and with the library itself, on random documents, edits of them and stored rows.

    python3 test_beside.py LIBRARY [--count N] [--seed N]

LIBRARY is libjiter.so.0, which is called through ctypes. The documents are those of checks/documents.py: its inputs, and N
random ones. Shown are:

- `loads` accepts what `json.loads` accepts, except for what `meant` lists, and returns an equal value of equal types
- in each mode, with and without `unique` and `non_finite`, the value is what the library prints, and the error is its own
- `Parser`: the same of each prefix at which a document is cut, for `value`, `error` and `finish`
- `loads_lines`: the same of each line
"""

import argparse
import ctypes
import itertools
import json
import os
import random
import re
import sys

sys.dont_write_bytecode = True
HERE = os.path.dirname(os.path.abspath(__file__))
sys.path.insert(1, f"{HERE}/../../checks")

import documents

import safelorim
from test_safelorim import same

MODES = ("off", "on", "trailing-strings")
LEVELS = 200
OUT_OF_RANGE, DEPTH, OUT_OF_MEMORY, TWICE = 13, 21, 22, 23
LONG = re.compile(rb"\d{4301}")
# Of unpaired surrogates.
HALVES = (17, 20, 14)


class Fault(ctypes.Structure):
    _fields_ = [(it, ctypes.c_uint32) for it in ("kind", "expected", "actual")] + [("index", ctypes.c_size_t)]


class Library:
    """The library's own answers: a value that it printed, or the kind and the index of an error."""

    def __init__(self, path):
        self.calls = ctypes.CDLL(path)
        size, flag, mode, bytes_ = ctypes.c_size_t, ctypes.c_bool, ctypes.c_uint32, ctypes.c_char_p
        handle, fault, whole = ctypes.POINTER(ctypes.c_void_p), ctypes.POINTER(Fault), ctypes.POINTER(size)
        for name, result, arguments in (
            ("jiter_print", flag, (bytes_, size, flag, mode, bytes_, size, whole, fault)),
            ("jiter_handle_new", flag, (handle,)),
            ("jiter_handle_free", None, (ctypes.c_void_p,)),
            ("jiter_document_read", flag, (handle, bytes_, size, flag, mode, flag, fault)),
            ("jiter_document_print", flag, (handle, bytes_, size, bytes_, size, bytes_, size, whole, fault)),
        ):
            function = getattr(self.calls, name)
            function.restype, function.argtypes = result, arguments

    def text(self, call):
        """Returns what a call of this form writes, or its error."""
        fault, whole, room = Fault(), ctypes.c_size_t(), 0
        while True:
            out = ctypes.create_string_buffer(room + 1)
            if not call(out, room, whole, fault):
                return fault.kind, fault.index
            if whole.value <= room:
                return json.loads(out.raw[: whole.value].decode())
            room = whole.value

    def unique(self, data, mode, non_finite):
        handle, fault = ctypes.c_void_p(), Fault()
        assert self.calls.jiter_handle_new(handle)
        try:
            if not self.calls.jiter_document_read(handle, data, len(data), non_finite, mode, True, fault):
                return fault.kind, fault.index
            return self.text(lambda *out: self.calls.jiter_document_print(handle, b"", 0, None, 0, *out))
        finally:
            self.calls.jiter_handle_free(handle)

    def answer(self, data, partial="off", unique=False, non_finite=False):
        """Returns the value, or a pair of a kind and an index."""
        mode = MODES.index(partial)
        if unique:
            return self.unique(data, mode, non_finite)
        return self.text(lambda *out: self.calls.jiter_print(data, len(data), non_finite, mode, *out))


def outcome(call, *words, **settings):
    """Returns the value of a call of safelorim, or a pair of a kind and an index."""
    try:
        return call(*words, **settings)
    except safelorim.JsonError as error:
        assert error.kind != OUT_OF_MEMORY
        return error.kind, error.index


def alike(one, other):
    """Returns whether two outcomes are equal. No value is a tuple."""
    return one == other if isinstance(one, tuple) or isinstance(other, tuple) else same(one, other)


class Members(list):
    """The members of an object, repeated ones too."""


def plain(value):
    if isinstance(value, Members):
        return {key: plain(it) for key, it in value}
    return [plain(it) for it in value] if isinstance(value, list) else value


def meant(value, settings, levels=0):
    """Yields the kinds of errors with which safelorim rejects a value that json accepts."""
    if isinstance(value, float) and value in (value.__class__("inf"), value.__class__("-inf")) or value != value:
        if not settings["non_finite"]:
            yield (9, 10, 12)
    elif isinstance(value, str):
        if re.search("[\ud800-\udfff]", value):
            yield HALVES
    elif isinstance(value, list) and value:
        if levels == LEVELS:
            yield (DEPTH,)
        if isinstance(value, Members):
            keys = [key for key, _ in value]
            if settings["unique"] and len(set(keys)) < len(keys):
                yield (TWICE,)
            value = [it for pair in value for it in pair]
        for it in value:
            yield from meant(it, settings, levels + 1)


def beside_json(document, settings):
    """Returns what is wrong, or None."""
    found = outcome(safelorim.loads, document, **settings)
    if LONG.search(document) and isinstance(found, tuple) and found[0] == OUT_OF_RANGE:
        return None
    try:
        # 1e400 is no word: safelorim accepts it.
        hooks = {"parse_float": lambda it: 0.5 if abs(float(it)) == float("inf") else float(it)} if not settings["non_finite"] else {}
        value = json.loads(document.decode(), object_pairs_hook=Members, **hooks)
    except (ValueError, RecursionError) as error:
        return None if isinstance(found, tuple) else f"json: {error}"
    kinds = list(itertools.chain(*meant(value, settings)))
    if kinds:
        return None if isinstance(found, tuple) and found[0] in kinds else f"json's value is rejected with one of {kinds}"
    value = json.loads(document.decode())
    return None if same(found, value) else "json has another value"


def texts(document):
    """Yields the document as a str, if it is UTF-8."""
    try:
        text = document.decode()
    except UnicodeDecodeError:
        return
    yield text


def beside_library(library, document, settings):
    for partial in MODES:
        wanted = library.answer(document, partial, **settings)
        for it in (document, *texts(document)):
            if not alike(outcome(safelorim.loads, it, partial=partial, **settings), wanted):
                return f"{partial}: the library: {wanted!r}"


def in_chunks(library, document, settings, dice):
    partial = dice.choice(MODES)
    parser = safelorim.Parser(partial=partial, **settings)
    cuts = sorted({*(dice.randrange(len(document) + 1) for _ in range(dice.choice((2, 8, 30)))), len(document)})
    for start, end in zip([0, *cuts], cuts):
        parser.push(document[start:end])
        prefix = document[:end]
        if dice.random() < 0.9 and not alike(outcome(parser.value), library.answer(prefix, partial, **settings)):
            return f"{partial}, the value of {prefix!r}: {outcome(parser.value)!r}"
        wanted = library.answer(prefix, **settings)
        if dice.random() < 0.3 and not alike(outcome(parser.finish), wanted):
            return f"{partial}, the end of {prefix!r}: {outcome(parser.finish)!r}"
        error = parser.error()
        if (error and (error.kind, error.index)) != (wanted if isinstance(wanted, tuple) else None):
            return f"{partial}, the error of {prefix!r}: {error!r}"


def by_lines(library, log, settings):
    values, errors, index = [], {}, 0
    for number, line in enumerate(log.split(b"\n"), 1):
        found = library.answer(line, **settings)
        if not line.strip(b" \t\r"):
            pass
        elif isinstance(found, tuple):
            errors[number] = (found[0], index + found[1])
        else:
            values.append(found)
        index += len(line) + 1
    got, bad = safelorim.loads_lines(log, **settings)
    if not same(got, values) or {it: (bad[it].kind, bad[it].index) for it in bad} != errors:
        return f"{values!r} {errors!r}: {got!r} {bad!r}"
    if any(it != bad[it].line for it in bad):
        return f"lines: {bad!r}"


def main():
    asked = argparse.ArgumentParser()
    asked.add_argument("library")
    asked.add_argument("--count", type=int, default=1000)
    asked.add_argument("--seed", type=int, default=1)
    asked = asked.parse_args()
    library, dice, log, wrong, done = Library(asked.library), random.Random(asked.seed), [], 0, 0
    rows = documents.inputs()
    for document in itertools.chain(rows, itertools.islice(documents.documents(dice), asked.count)):
        settings = {"unique": dice.random() < 0.3, "non_finite": dice.random() < 0.6}
        log.append(document)
        found = [beside_json(document, settings), beside_library(library, document, settings)]
        found.append(in_chunks(library, document, settings, dice))
        if len(log) == 10:
            found.append(by_lines(library, b"\n".join(log), settings))
            log.clear()
        done += len(found)
        for it in filter(None, found):
            wrong += 1
            print(f"{document[:500]!r} {settings}: {it[:500]}")
        if wrong > 20:
            break
    print(f"test_beside: {done} comparisons, {wrong} wrong")
    return wrong != 0


if __name__ == "__main__":
    sys.exit(main())
