"""Tests of safelorim: equal to `json.loads` on a corpus, errors, truncated documents, chunks, logs, and that nothing leaks.

    python3 test_safelorim.py [--short] [unittest's words]

The module must be installed, or in the folder that PYTHONPATH names. --short makes fewer calls where it counts leaks.
"""

import concurrent.futures
import decimal
import doctest
import gc
import inspect
import itertools
import json
import math
import os
import pickle
import random
import signal
import subprocess
import sys
import textwrap
import threading
import time
import unittest

import safelorim

HERE = os.path.dirname(os.path.abspath(__file__))
PAGE = f"{HERE}/../../docs/PYTHON.md"
# How often ten calls are made where leaks are counted: a million calls.
ROUNDS = 100_000

CORPUS = [
    "null", "true", " false ", "0", "-0", "12", "-7", "9223372036854775807", "9223372036854775808", "1" * 400,
    "1.5", "-2.50e-3", "1E400", "0.1e+2", '""', '"a"', '"\\u00e9\\n\\"\\\\\\/"', '"\\ud83d\\ude00"', '"é😀"', "[]", "{}",
    "[1, [2.0, []], {\"k\": null}]", '{"a": 1, "b": [true], "a": 2}', '{"\\u0061": {"b": {}}}', "NaN", "[Infinity, -Infinity]",
    "[" * 201 + "]" * 201, '{"a":' * 200 + "{}" + "}" * 200, '[{"a":' * 100 + "1" + "}]" * 100, '"\\u0000\\u001f\\u007f"', '["é\\n\x7f", "\x7f", "a\x7f中"]', '{"ké\\t\x7f": "\x7f", "é": {"中\\"": "\\u4e2d"}, "\x7f": "\\\\é"}',
    '["%s", "é"]' % ("\\n" * 3000), '["%s"]' % ("é\\n" * 3000),
]
REJECTED = [
    "", " ", "[1,]", "{\"a\" 1}", "{1: 2}", "[1 2]", "01", "1.", "-", "tru", '"a', '"\x01"', '"\\x"', "1 2", "[", "{", "nul",
    "[1", '{"a": ', "+1", ".5", "'a'", "\ufeff1", "é", "[é]", '{é: 1}', '["é" 中]', "[1中]", '["é"\x7f]', "\x7f", "[tr中ue]", '["\\é"]', '"\\u004é"',
]


def same(one, other):
    """Returns whether two values are equal, with NaN equal to itself and types that match."""
    if isinstance(one, float) and isinstance(other, float):
        return one == other or (math.isnan(one) and math.isnan(other))
    if type(one) is not type(other):
        return False
    if isinstance(one, list):
        return len(one) == len(other) and all(map(same, one, other))
    if isinstance(one, dict):
        return list(one) == list(other) and all(same(one[key], other[key]) for key in one)
    return one == other


def some_value(dice, depth):
    if depth == 0 or dice.random() < 0.4:
        texts = ["", "a", "é\n\"", "\\", "😀", "\x1f\x7f", "0" * 40]
        return dice.choice([None, True, False, dice.randrange(-(2**70), 2**70), dice.uniform(-1e9, 1e9), dice.choice(texts)])
    if dice.random() < 0.5:
        return [some_value(dice, depth - 1) for _ in range(dice.randrange(5))]
    return {f"k{i}\t": some_value(dice, depth - 1) for i in range(dice.randrange(5))}


class Loads(unittest.TestCase):
    def rejected(self, *words, **settings):
        """Returns the error of a call of `loads`."""
        with self.assertRaises(safelorim.JsonError, msg=words) as raised:
            safelorim.loads(*words, **settings)
        return raised.exception

    def test_equals_json(self):
        for text in CORPUS:
            for data in (text, text.encode(), bytearray(text.encode())):
                self.assertTrue(same(safelorim.loads(data, non_finite=True), json.loads(text)), text)

    def test_equals_json_on_random_values(self):
        dice = random.Random(7)
        for _ in range(300):
            value = some_value(dice, 5)
            for text in (json.dumps(value), json.dumps(value, ensure_ascii=False, indent=1)):
                self.assertTrue(same(safelorim.loads(text), json.loads(text)), text)

    def test_rejects_what_json_rejects(self):
        for text in REJECTED:
            with self.assertRaises(ValueError, msg=text):
                json.loads(text)
            self.rejected(text, non_finite=True)

    def test_rejects_what_json_accepts(self):
        for text, kind, index in (
            ("[" * 202 + "]" * 202, 21, 201), ('{"a":' * 201 + "1" + "}" * 201, 21, 1005), ('"\\ud83d"', 20, 7), ('"\\udc00"', 17, 6), ("NaN", 10, 0), ("[-Infinity]", 12, 2),
        ):
            json.loads(text)
            error = self.rejected(text)
            self.assertEqual((error.kind, error.index), (kind, index), text)

    def test_error_has_its_place(self):
        error = self.rejected(b"[1,\n 2,]")
        self.assertEqual((error.cause, error.kind, error.index, error.line, error.column), ("trailing comma", 18, 7, 2, 4))
        self.assertEqual(str(error), "trailing comma at line 2 column 4")
        self.assertIsInstance(error, ValueError)

    def test_error_counts_bytes(self):
        self.assertEqual(self.rejected('["é",]').index, self.rejected('["é",]'.encode()).index)
        self.assertEqual(self.rejected('["é",]').index, 6)

    def test_error_is_pickled(self):
        again = pickle.loads(pickle.dumps(self.rejected("[1,]")))
        self.assertEqual((type(again), str(again)), (safelorim.JsonError, "trailing comma at line 1 column 4"))
        self.assertEqual((again.cause, again.kind, again.index, again.line, again.column), ("trailing comma", 18, 3, 1, 4))

    def test_takes_what_json_takes(self):
        for data in ("[1]", b"[1]", bytearray(b"[1]"), memoryview(b"x[1]")[1:]):
            self.assertEqual(safelorim.loads(data), [1])
        for data in ([49], 5, 10**10, None, {"a": 1}, ("1",), 1.5):
            with self.assertRaises(TypeError, msg=data):
                safelorim.loads(data)
            with self.assertRaises(TypeError, msg=data):
                safelorim.Parser().push(data)

    def test_takes_subclasses(self):
        text = type("Text", (str,), {})('["é", "a"]')
        for data in (text, type("Bytes", (bytes,), {})(text.encode())):
            for partial in (None, "on"):
                self.assertEqual(safelorim.loads(data, partial=partial), ["é", "a"])

    def test_takes_what_bytes_takes_of_a_memoryview(self):
        self.assertEqual(safelorim.loads(memoryview(b"[x1x]x")[::2]), [1])

    def test_names_of_arguments(self):
        for words, settings in (((), {}), (("1", "2"), {}), (("1",), {"strict": True}), ((), {"data": "1"})):
            with self.assertRaises(TypeError):
                safelorim.loads(*words, **settings)
        parameters = inspect.signature(safelorim.loads).parameters
        self.assertEqual(list(parameters), ["data", "partial", "unique", "non_finite", "float"])

    def test_unpaired_surrogate_is_no_utf8(self):
        error = self.rejected('"\ud800"')
        self.assertEqual((error.kind, error.index), (14, 1))

    def test_non_finite_numbers_are_allowed_or_not(self):
        for text in ("NaN", "Infinity", "-Infinity"):
            self.assertIsInstance(safelorim.loads(text, unique=True, non_finite=True), float)
            for unique in (False, True):
                self.rejected(text, unique=unique)
        self.assertEqual(safelorim.loads("[1e400, -1e400, 1e-400]"), [math.inf, -math.inf, 0.0])

    def test_integers_are_exact(self):
        for size in (1, 18, 19, 20, 63, 64, 65, 1000, 14000):
            for value in (2**size - 1, -(2**size), 10 ** (size // 4)):
                self.assertEqual(safelorim.loads(f"[{value}]"), [value])
        self.assertEqual(self.rejected("1" * 4301).kind, 13)

    def test_float(self):
        text = "[1, 2.50, -1e400, 123456789012345678901234567890]"
        wanted = [1, decimal.Decimal("2.50"), decimal.Decimal("-1e400"), 123456789012345678901234567890]
        self.assertTrue(same(safelorim.loads(text, float=decimal.Decimal), wanted))
        self.assertEqual(safelorim.loads(text, float=str), [1, "2.50", "-1e400", 123456789012345678901234567890])
        self.assertTrue(math.isnan(safelorim.loads("NaN", float=decimal.Decimal, non_finite=True)))
        self.assertTrue(same(safelorim.loads("[1.5]", float=float), [1.5]))
        self.assertTrue(same(safelorim.loads("[1.5]", float=None), [1.5]))
        self.assertEqual(safelorim.loads('{"a": [1.5, 2.', float=str, partial="on"), {"a": ["1.5"]})
        self.assertEqual(safelorim.loads('{"a": [1.5, 2.5', float=str, partial="on"), {"a": ["1.5", "2.5"]})
        with self.assertRaises(TypeError):
            safelorim.loads("1.5", float="float")
        with self.assertRaises(ZeroDivisionError):
            safelorim.loads("[[1, {\"a\": [1.5]}]]", float=lambda _: 1 // 0)

    def test_limit_of_digits_is_kept(self):
        if not hasattr(sys, "set_int_max_str_digits"):
            self.skipTest("this Python has no such limit")
        limit = sys.get_int_max_str_digits()
        try:
            sys.set_int_max_str_digits(640)
            with self.assertRaisesRegex(ValueError, "limit"):
                safelorim.loads(f"[{'1' * 641}]")
        finally:
            sys.set_int_max_str_digits(limit)

    def test_short_keys_are_shared(self):
        one, other = safelorim.loads('[{"a key": 1}, {"a key": 2}]'), safelorim.loads(b'{"a key": 3}')
        keys = [list(it)[0] for it in (*one, other)]
        self.assertIs(keys[0], keys[1])
        self.assertIs(keys[0], keys[2])
        for key, is_kept in (("k" * 64, True), ("k" * 65, False), ("ké", False)):
            one, other = (list(safelorim.loads(json.dumps({key: 1}, ensure_ascii=False)))[0] for _ in range(2))
            self.assertEqual((one, one is other), (key, is_kept))

    def test_long_texts(self):
        for count in (1, 2, 3, 4, 5, 7, 8, 9, 15, 16, 17, 31, 32, 33, 63, 64, 65, 99, 100, 4095, 4096, 70000):
            for char in ("a", "\n", "é", "Ā", "\uffff", "\x7f", "\\", "\U0001f600"):
                for text in (char * count, "x" * count + char, char + "x" * count):
                    for is_ascii in (False, True):
                        source = json.dumps({text: [text]}, ensure_ascii=is_ascii)
                        for unique in (False, True):
                            self.assertTrue(same(safelorim.loads(source, unique=unique), {text: [text]}))

    def test_each_character(self):
        chars = [chr(it) for it in range(0x110000) if not 0xD800 <= it < 0xE000]
        for at in range(0, len(chars), 4096):
            text = "".join(chars[at : at + 4096])
            for is_ascii in (False, True):
                self.assertEqual(safelorim.loads(json.dumps(text, ensure_ascii=is_ascii)), text)
        for char in chars[::97]:
            self.assertEqual(safelorim.loads(json.dumps([char], ensure_ascii=False)), [char])

    def test_dumps_is_that_of_json(self):
        self.assertIs(safelorim.dumps, json.dumps)

    def test_bytes_that_are_not_utf8(self):
        error = self.rejected(b'"\xff"')
        self.assertEqual((error.kind, error.index), (14, 1))

    def test_partial(self):
        text = b'{"a": [1, 2, {"b": "he'
        self.assertEqual(safelorim.loads(text, partial="on"), {"a": [1, 2, {}]})
        self.assertEqual(safelorim.loads(text, partial="trailing-strings"), {"a": [1, 2, {"b": "he"}]})
        for partial in (None, "off"):
            self.rejected(text, partial=partial)
        for partial in ("some", "", "o", "on\0"):
            with self.assertRaises(ValueError):
                safelorim.loads(text, partial=partial)

    def test_unique(self):
        self.assertEqual(safelorim.loads(b'{"a": {"a": 1}}', unique=True), {"a": {"a": 1}})
        error = self.rejected(b'{"a": 1, "\\u0061": 2}', unique=True)
        self.assertEqual((error.kind, error.index, error.cause), (23, 18, 'Detected duplicate key "a"'))
        for key, told in (("", '""'), ("k" * 100, '"' + "k" * 100 + '"'), ('"', '"\\""'), ("\n\x1fé", '"\\n\\u001fé"')):
            text = json.dumps([key])[1:-1]
            error = self.rejected(f"{{{text}: 1, {text}: 2}}", unique=True)
            self.assertEqual(error.cause, f"Detected duplicate key {told}")
        self.assertEqual(self.rejected(b"[1,]", unique=True).kind, 18)
        for partial, value in (("trailing-strings", [{"a": "x"}]), ("on", [{}])):
            self.assertEqual(safelorim.loads(b'[{"a": "x', partial=partial, unique=True), value)
            self.assertEqual(self.rejected(b'[{"a": 1, "a": "x', partial=partial, unique=True).kind, 23)

    def test_interrupt(self):
        """Ctrl-C ends a call long before its document is read. Time is that of the processor."""
        text = "[" + "[], " * 3_000_000 + "1]"

        def interrupt(number, frame):
            raise KeyboardInterrupt

        def seconds():
            start = time.process_time()
            try:
                safelorim.loads(text)
                return time.process_time() - start, False
            except KeyboardInterrupt:
                return time.process_time() - start, True

        whole, _ = seconds()
        before = signal.signal(signal.SIGPROF, interrupt)
        try:
            signal.setitimer(signal.ITIMER_PROF, 0.01)
            part, is_interrupted = seconds()
        finally:
            signal.setitimer(signal.ITIMER_PROF, 0)
            signal.signal(signal.SIGPROF, before)
        self.assertTrue(is_interrupted)
        self.assertLess(part, whole / 2)


class Chunks(unittest.TestCase):
    def test_every_cut(self):
        text = json.dumps({"a": [1, 2.5, "é\n", {}], "b": None}, ensure_ascii=False).encode()
        for size in (1, 2, 3, 7):
            parser = safelorim.Parser()
            for at in range(0, len(text), size):
                parser.push(text[at : at + size])
            self.assertEqual(parser.finish(), json.loads(text))

    def test_value_so_far(self):
        parser = safelorim.Parser()
        parser.push(b'[12, "a ')
        self.assertEqual(parser.value(), [12, "a "])
        with self.assertRaises(safelorim.JsonError):
            parser.finish()
        parser.push(b'b"]')
        self.assertEqual(parser.finish(), [12, "a b"])

    def test_error_has_its_place(self):
        parser = safelorim.Parser(partial="off")
        for chunk in (b"[1,\n ", b"2,]"):
            parser.push(chunk)
        with self.assertRaises(safelorim.JsonError) as raised:
            parser.finish()
        self.assertEqual((raised.exception.line, raised.exception.column), (2, 4))
        self.assertEqual(str(raised.exception), "trailing comma at line 2 column 4")

    def test_modes(self):
        for partial, value in (("on", [1, {}]), ("trailing-strings", [1, {"a": "x"}])):
            parser = safelorim.Parser(partial=partial)
            parser.push('[1, {"a": "x')
            self.assertEqual(parser.value(), value)
        with self.assertRaises(ValueError):
            safelorim.Parser(partial="some")

    def test_settings(self):
        parser = safelorim.Parser(non_finite=True, float=str)
        parser.push("[-Infinity, 1.50")
        self.assertEqual(parser.value(), ["-Infinity", "1.50"])
        parser.push("]")
        self.assertEqual(parser.finish(), ["-Infinity", "1.50"])
        parser = safelorim.Parser(unique=True)
        parser.push('{"a": [-1], "a": ')
        for call in (parser.value, parser.finish):
            with self.assertRaises(safelorim.JsonError) as raised:
                call()
            self.assertEqual((raised.exception.kind, raised.exception.index), (23, 16))
        parser = safelorim.Parser()
        parser.push("[-Infinity]")
        with self.assertRaises(safelorim.JsonError):
            parser.finish()
        with self.assertRaises(TypeError):
            safelorim.Parser("on")

    def test_error(self):
        parser = safelorim.Parser()
        for chunk, kind, index in ((b"", 5, 0), (b"[1", 2, 2), (b", ", 5, 4), (b"2]", None, None), (b" ", None, None), (b"x", 19, 7)):
            parser.push(chunk)
            error = parser.error()
            self.assertEqual((error.kind, error.index) if error else (None, None), (kind, index))
            self.assertIsInstance(error, (safelorim.JsonError, type(None)))

    def test_numbers_without_brackets(self):
        parser = safelorim.Parser(partial="off")
        for chunk, value in (("1", 1), ("2", 12), (".5", 12.5)):
            parser.push(chunk)
            self.assertEqual((parser.value(), parser.finish(), parser.error()), (value, value, None))

    def test_values_stay(self):
        """A value doesn't change when the document grows, nor the document when a value is changed."""
        parser = safelorim.Parser()
        parser.push('{"a": [1, {"b": [2, "x')
        first = parser.value()
        parser.push('y"], "c": 3')
        second = parser.value()
        self.assertEqual(first, {"a": [1, {"b": [2, "x"]}]})
        self.assertEqual(second, {"a": [1, {"b": [2, "xy"], "c": 3}]})
        second["a"].append(4)
        second["a"][1].clear()
        second.clear()
        parser.push("}]}")
        self.assertEqual(parser.finish(), {"a": [1, {"b": [2, "xy"], "c": 3}]})

    def test_call_within_a_call(self):
        def again(text):
            with self.assertRaisesRegex(RuntimeError, "in a call already"):
                parser.push("]")
            return text

        parser = safelorim.Parser(float=again)
        parser.push("[1.5]")
        self.assertEqual(parser.finish(), ["1.5"])

    def test_failed_call_is_made_again(self):
        """A callable that fails, as memory does, loses nothing."""
        failures = [True, False, True, True, False, False]

        def make(text):
            if failures.pop(0):
                raise ArithmeticError(text)
            return text

        parser = safelorim.Parser(float=make)
        parser.push('{"a": [1.0, {"b": 2.0, "c": 3.0}]}')
        for value in ("1.0", "2.0", "2.0"):
            with self.assertRaisesRegex(ArithmeticError, value):
                parser.value()
        self.assertEqual(parser.value(), {"a": ["1.0", {"b": "2.0", "c": "3.0"}]})

    def test_cost_of_values(self):
        """A value of a longer document costs no more, if its open containers are as long."""
        text = b'{"list": [%s' % b", ".join([b'{"key": [1, 2, 3], "text": "0123456789"}'] * 20)
        parser = safelorim.Parser()
        parser.push(text)
        before = sys.getallocatedblocks()
        values = []
        for _ in range(1000):
            parser.push(b" ")
            values.append(parser.value())
        # A dict, a list and what they need, and not the twenty items with theirs.
        self.assertLess(sys.getallocatedblocks() - before, 1000 * 12)

    def test_long_strings(self):
        """What is complete of a string is there, whatever the pieces and the chunks."""
        dice = random.Random(3)
        kinds = [
            [("a", "a"), (" ", " ")],
            [("\\n", "\n"), ("\\\\", "\\"), ('\\"', '"'), ("\\/", "/"), ("u", "u"), ("0", "0")],
            [("\\u4e2d", "中"), ("\\ud55c", "한"), ("\\uFFFF", "\uffff"), ("d", "d")],
            [("\\ud83d\\ude00", "😀"), ("\\uDBFF\\uDFFF", "\U0010ffff"), ("8", "8")],
            [("é", "é"), ("中", "中"), ("😀", "😀"), ("x", "x")],
        ]
        kinds.append([it for kind in kinds for it in kind])
        for kind in kinds * 3:
            pieces = [(source.encode(), text) for source, text in dice.choices(kind, k=dice.choice((9, 300, 600)))]
            data, ends = b"".join(source for source, _ in pieces), [0]
            for source, _ in pieces:
                ends.append(ends[-1] + len(source))
            parsers = {it: safelorim.Parser(partial=it) for it in ("on", "trailing-strings")}
            at, most = 0, dice.choice((1, 7, 100))
            for parser in parsers.values():
                parser.push(b'[1, "')
            while at < len(data):
                chunk = data[at : at + dice.randrange(1, most + 1)]
                at += len(chunk)
                so_far = "".join(text for end, (_, text) in zip(ends[1:], pieces) if end <= at)
                for partial, parser in parsers.items():
                    parser.push(chunk)
                    self.assertEqual(parser.value(), [1, so_far] if partial == "trailing-strings" else [1])
            for parser in parsers.values():
                parser.push(b'"]')
                self.assertEqual(parser.finish(), [1, "".join(text for _, text in pieces)])

    def test_threads(self):
        parser = safelorim.Parser()
        parser.push("[")
        with concurrent.futures.ThreadPoolExecutor(4) as pool:
            list(pool.map(lambda _: (parser.push("1,2,"), parser.value()), range(300)))
        parser.push("0]")
        self.assertEqual(parser.finish(), [1, 2] * 300 + [0])

    def test_threads_wait(self):
        """A call waits for one of another thread that runs Python code."""
        inside, go_on = threading.Event(), threading.Event()

        def make(text):
            inside.set()
            go_on.wait(10)
            return text

        parser = safelorim.Parser(float=make)
        parser.push("[1.5")
        parser.push(", 2")
        with concurrent.futures.ThreadPoolExecutor(2) as pool:
            value = pool.submit(parser.value)
            inside.wait(10)
            pushed = pool.submit(parser.push, "5]")
            go_on.set()
            pushed.result()
            self.assertIn(value.result(), (["1.5", 2], ["1.5", 25]))
        self.assertEqual(parser.finish(), ["1.5", 25])


class Lines(unittest.TestCase):
    def test_values_and_errors(self):
        values, errors = safelorim.loads_lines(b'{"a": 1}\n\n \t\r\n[1,]\r\n"\xff"\nnull\n[2')
        self.assertEqual(values, [{"a": 1}, None])
        self.assertEqual(list(errors), [4, 5, 7])
        told = [(it.kind, it.index, it.line, it.column) for it in errors.values()]
        self.assertEqual(told, [(18, 17, 4, 4), (14, 21, 5, 2), (2, 31, 7, 2)])
        self.assertEqual(str(errors[4]), "trailing comma at line 4 column 4")

    def test_line_feed_at_the_end(self):
        for text in ("1\n2", "1\n2\n", "1\n2\n\n", "\n1\n2\r\n"):
            self.assertEqual(safelorim.loads_lines(text), ([1, 2], {}))
        for text in ("", "\n", " \n\n"):
            self.assertEqual(safelorim.loads_lines(text), ([], {}))

    def test_settings(self):
        values, errors = safelorim.loads_lines('{"a": 1, "a": 2}\n[NaN, 1.50]\n', unique=True, non_finite=True, float=str)
        self.assertEqual((values, errors[1].kind), ([["NaN", "1.50"]], 23))
        self.assertEqual(safelorim.loads_lines("[NaN]")[1][1].kind, 10)
        with self.assertRaises(TypeError):
            safelorim.loads_lines("1", partial="on")

    def test_exception_of_a_callable(self):
        with self.assertRaises(ZeroDivisionError):
            safelorim.loads_lines("1\n1.5\n2", float=lambda _: 1 // 0)


class Interpreters(unittest.TestCase):
    def test_subinterpreters(self):
        """Each has a module of its own."""
        code = """
            import sys
            try:
                import _interpreters as made
            except ImportError:
                import _xxsubinterpreters as made
            code = "import safelorim; assert safelorim.loads('{\\"a key\\": [1, 2.5]}') == {'a key': [1, 2.5]}; " \\
                   "assert safelorim.Parser().error().kind == 5"
            import safelorim
            kept = safelorim.loads('{"a key": 1}')
            for _ in range(3):
                it = made.create()
                raised = made.run_string(it, code)
                assert raised is None, raised
                made.destroy(it)
            assert safelorim.loads('{"a key": 1}') == kept
        """
        ran = subprocess.run([sys.executable, "-c", textwrap.dedent(code)], stderr=subprocess.PIPE, text=True)
        if "No module named '_xxsub" in ran.stderr:
            self.skipTest("this Python has no subinterpreters")
        self.assertEqual((ran.returncode, ran.stderr), (0, ""))


def all_calls(text, other):
    """Makes each call, of a document that repeats a key and of one that is rejected."""
    safelorim.loads(text)
    safelorim.loads(text.encode(), float=decimal.Decimal)
    safelorim.loads(text[:-7], partial="trailing-strings", unique=True)
    safelorim.loads_lines(text + "\n" + other)
    for words in ((text, {"unique": True}), (other, {}), (other, {"unique": True}), (other, {"partial": "on"})):
        try:
            safelorim.loads(words[0], **words[1])
        except safelorim.JsonError:
            pass
    parser = safelorim.Parser(float=decimal.Decimal)
    parser.push(text[:20])
    parser.value()
    parser.push(text[20:])
    parser.finish()
    parser = safelorim.Parser()
    parser.push(other)
    parser.error()


class Memory(unittest.TestCase):
    def memory(self):
        with open("/proc/self/statm") as file:
            return int(file.read().split()[1]) * 4096

    def test_nothing_leaks(self):
        text = '{"a": [1, 2.5, "t\\n", {}, {"b": null}], "é": 123456789012345678901234567890, "a": 3}'
        for _ in range(1000):
            all_calls(text, "[1, [2, {\"k\": 3,}]]")
        gc.collect()
        shared = (None, True, 1, *safelorim.loads('{"a": 1}'))
        blocks, memory, counts = sys.getallocatedblocks(), self.memory(), [sys.getrefcount(it) for it in shared]
        for _ in range(ROUNDS):
            all_calls(text, "[1, [2, {\"k\": 3,}]]")
        gc.collect()
        self.assertLess(abs(sys.getallocatedblocks() - blocks), 500)
        if "PYTHONMALLOC" not in os.environ:  # the sanitizers' allocator keeps what is freed
            self.assertLess(self.memory() - memory, 4 << 20)
        for it, before in zip(shared, counts):
            self.assertLess(abs(sys.getrefcount(it) - before), 500, it)

    def test_cycles_are_collected(self):
        class Make:
            """Holds the parser; so do the floats that it makes, if they are asked for."""

            def __call__(self, text):
                made = Make()
                made.parser = self.parser
                return made

        for text in ("[[1.5], 2.5", "[[1.5], 2.5]", ""):
            gc.collect()
            before = len(gc.get_objects())
            for _ in range(100):
                make = Make()
                make.parser = safelorim.Parser(float=make)
                if text:
                    make.parser.push(text)
                    make.parser.value()
            del make
            gc.collect()
            self.assertLess(len(gc.get_objects()) - before, 100, text)


def without_memory(call):
    """Makes a call with each request of Python's allocators refused in turn. Returns how many were."""
    import _testcapi

    for number in range(1, 10_000):
        gc.collect()
        try:
            _testcapi.set_nomemory(number, number + 1)
            try:
                refused = call()
            finally:
                _testcapi.remove_mem_hooks()
        except MemoryError:
            continue
        if not refused:
            return number - 1
    raise AssertionError("there is no end")


class Refused(unittest.TestCase):
    TEXT = '{"k": [1, "t\\n", {}, 9223372036854775808, [2.5, "é"]], "l": "' + "0123456789" * 60 + '"}'

    def setUp(self):
        try:
            import _testcapi

            _testcapi.set_nomemory
        except (ImportError, AttributeError):
            self.skipTest("this Python has no _testcapi.set_nomemory")

    def test_loads(self):
        value = json.loads(self.TEXT)
        for data, settings in itertools.product((self.TEXT, self.TEXT.encode()), ({}, {"unique": True}, {"partial": "on"})):
            result = []

            def call():
                result[:] = [safelorim.loads(data, **settings)]

            self.assertGreater(without_memory(call), 5)
            self.assertEqual(result, [value])

    def test_errors(self):
        for data in ("[1, [2,]]", '{"a": {"b": 1, "b": 2}}'):
            result = []

            def call():
                try:
                    safelorim.loads(data, unique=True)
                except safelorim.JsonError as error:
                    result[:] = [error.kind]

            self.assertGreater(without_memory(call), 5)
            self.assertIn(result[0], (18, 23))

    def test_lines(self):
        result = []

        def call():
            result[:] = safelorim.loads_lines(self.TEXT + "\n[1,]\n2")

        self.assertGreater(without_memory(call), 5)
        self.assertEqual((result[0], list(result[1])), ([json.loads(self.TEXT), 2], [2]))

    def test_parser_loses_nothing(self):
        """Each call that raises MemoryError is made again, with memory, and then the value is what it always is."""
        import _testcapi

        value, number, refused, total = json.loads(self.TEXT), 0, 1, 0

        def made(call, *words):
            nonlocal refused
            try:
                _testcapi.set_nomemory(number, number + 1)
                try:
                    return call(*words)
                finally:
                    _testcapi.remove_mem_hooks()
            except MemoryError:
                refused += 1
            return call(*words)

        while refused:
            number, refused, parser = number + 1, 0, safelorim.Parser()
            for at in range(0, len(self.TEXT), 90):
                made(parser.push, self.TEXT[at : at + 90])
                last = made(parser.value)
            self.assertEqual((last, made(parser.finish)), (value, value))
            total += refused
        self.assertGreater(total, 20)


def load_tests(loader, tests, pattern):
    tests.addTests(doctest.DocTestSuite(safelorim))
    if os.path.exists(PAGE):
        tests.addTests(doctest.DocFileSuite(PAGE, module_relative=False))
    return tests


if __name__ == "__main__":
    if "--short" in sys.argv:
        sys.argv.remove("--short")
        ROUNDS //= 50
    unittest.main()
