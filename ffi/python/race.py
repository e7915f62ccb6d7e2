"""Times `safelorim.loads` beside `json.loads`, and beside ujson and rapidjson if they are installed.

    race.py [--seconds N] [--text] [FILE..]
    race.py --write FOLDER

It makes ten documents of 256 KB, and reads each with every parser by turns, in one process. The fastest reading counts, by
processor time. MB/s is that of safelorim. Below each other parser is how many times as fast safelorim is: 2.00 is twice as
fast. The last line has the geometric means. Documents are bytes, or with --text str. FILE is a document of your own.
Compare ratios of one row only: a busy machine slows all parsers. --write writes the documents for ffi/race.c, with four more of
small values.
"""

import argparse
import importlib
import json
import math
import os
import random
import time

SIZE = 256 * 1024
LATIN = "lorem ipsum dolor sit amet consectetur adipiscing elit sed do eiusmod tempor incididunt ut labore".split()
OTHERS = "こんにちは 世界 東京 привет мир été naïve Übung 안녕하세요 😀 日本語".split()


def documents(small=False):
    """Yields names and documents, the same each time."""
    any_of = random.Random(1)
    words = lambda count, others=0: " ".join(any_of.choice(OTHERS if any_of.random() < others else LATIN) for _ in range(count))
    number = any_of.randrange
    user = lambda: {"id": number(3 * 10**9), "name": words(2, 0.6), "description": words(24, 0.85), "url": None, "verified": False,
                    "followers_count": number(5000), "profile_image_url": f"http://images/{number(10**9)}/{words(1)}.jpeg"}
    area = lambda: {"areaId": number(10**9), "blockIds": [], "name": words(2), "topicIds": [number(10**9) for _ in range(4)], "start": None}
    forms = {
        "twitter": (2, lambda: {"id": number(10**17), "text": words(32, 0.9), "user": user(), "geo": None, "retweeted": False, "lang": "ja"}),
        "canada": (None, lambda: [[-any_of.uniform(40, 140), any_of.uniform(40, 83)] for _ in range(40)]),
        "citm": (4, area),
        "log": (None, lambda: {"ts": f"2024-01-1{number(9)}T10:00:00.{number(1000)}Z", "level": "INFO", "pid": number(65536), "msg": words(8), "ms": number(10**5) / 1000, "ok": True}),
        "ints": (None, lambda: number(-(10**9), 10**9)),
        "floats": (None, lambda: any_of.uniform(-1, 1) * 10 ** number(-9, 9)),
        "escaped": (None, lambda: words(9).replace(" ", any_of.choice('"\\\n'))),
        "members": (None, lambda: {"id": number(100), "x": number(100), "y": number(100), "width": number(100), "name": words(1), "on": True}),
        "plain": (None, lambda: words(2000)),
        "breaks": (None, lambda: words(9) + "\n"),
    }
    if small:
        forms |= {"digits": (None, lambda: number(10)), "pairs": (None, lambda: [number(10), number(10)]), "empty": (None, lambda: ""), "flags": (None, lambda: True)}
    for name, (indent, form) in forms.items():
        parts, length = [], 0
        while length < SIZE:
            parts.append(json.dumps(form(), ensure_ascii=False, indent=indent, separators=None if indent else (",", ":")))
            length += len(parts[-1].encode()) + 1
        yield name, f"[{','.join(parts)}]".encode()


def parsers():
    import safelorim

    yield "safelorim", safelorim.loads
    for name in ("json", "ujson", "rapidjson"):
        try:
            yield name, importlib.import_module(name).loads
        except ImportError:
            pass


def fastest(calls, data, seconds):
    """Returns the shortest time of each call."""
    times = [math.inf] * len(calls)
    end = time.monotonic() + seconds
    while time.monotonic() < end:
        for i, (_, call) in enumerate(calls):
            start = time.process_time_ns()
            value = call(data)
            times[i] = min(times[i], time.process_time_ns() - start)
            del value
    return times


def main():
    asked = argparse.ArgumentParser()
    asked.add_argument("--seconds", type=float, default=2, help="for each document")
    asked.add_argument("--text", action="store_true", help="documents are str")
    asked.add_argument("--write", metavar="FOLDER")
    asked.add_argument("files", nargs="*")
    asked = asked.parse_args()
    if asked.write:
        for name, data in documents(small=True):
            with open(f"{asked.write}/{name}.json", "wb") as file:
                file.write(data)
        return
    calls, means = list(parsers()), []
    given = [(os.path.basename(it), open(it, "rb").read()) for it in asked.files] or documents()
    print(f"{'':12}{'MB/s':>8}" + "".join(f"{name:>12}" for name, _ in calls[1:]))
    for name, data in given:
        size, data = len(data), data.decode() if asked.text else data
        own, *others = fastest(calls, data, asked.seconds)
        means.append([it / own for it in others])
        print(f"{name:12}{size / own * 1000:8.0f}" + "".join(f"{it:12.2f}" for it in means[-1]), flush=True)
    print(f"{'mean':20}" + "".join(f"{math.exp(sum(map(math.log, it)) / len(it)):12.2f}" for it in zip(*means)))


if __name__ == "__main__":
    main()
