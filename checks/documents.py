"""Makes documents for the script beside: random ones, edits of them, and the inputs of the tables crates/test_*."""

import glob

import common

SPACES = ("", "", "", " ", "\n", "\t", "\r\n", "  \n\n", " " * 17)
ESCAPES = (*(f"\\{it}" for it in '"\\/bfnrt'), "\\u0000", "\\u001F", "\\u0041", "\\u00e9", "\\u20ac", "\\uFFFF", "\\ud83d\\ude00", "\\uDBFF\\uDFFF")
BAD_ESCAPES = ("\\ud83d", "\\udc00", "\\ud83d\\n", "\\ud83dx", "\\ud83d\\ud83d", "\\udc00\\ud83d", "\\x", "\\u12", "\\uD8", "\\u12G4", "\\U0041", "\\ ", "\\")
LETTERS = ("a", "b", "key", " ", "/", "\x7f", "\x80", "é", "\u07ff", "\u0800", "€", "\ufeff", "\ufffe", "\uffff", "\U00010000", "😀", "\U0010ffff", "]", "}", ",", ":", "'")
SPECIAL = ("NaN", "Infinity", "-Infinity", "true", "false", "null")
BROKEN = (b"\xff", b"\xc3", b"\xe2\x82", b"\xed\xa0\x80", b"\xf0\x9f\x98", b"\xf4\x90\x80\x80", b"\xc0\x80", b"\x80")
BYTES = b'[]{}:,"\\0123456789eE+-. \n\t\r\x00\x0b\x1f\x7f\xc3\xa9aNItfnu/'
NAMED = [it.encode() for line in common.lines("documents") for it in line.split()]


def text(any_of):
    """Returns the text of a string, mostly a right one."""
    count = any_of.choice((0, 1, 2, 3, 5, 8, 14, 15, 16, 17, 30, 33, 70))
    parts = [any_of.choice(LETTERS) if any_of.random() < 0.5 else "x" for _ in range(count)]
    for it in range(any_of.choice((0, 0, 0, 1, 2, 9))):
        parts.insert(any_of.randrange(len(parts) + 1), any_of.choice(ESCAPES))
    if any_of.random() < 0.03:
        parts.insert(any_of.randrange(len(parts) + 1), any_of.choice((*BAD_ESCAPES, "\0", "\n", "\x1f")))
    return f'"{"".join(parts)}"'


def digits(any_of):
    return "".join(any_of.choice("0123456789") for _ in range(any_of.choice((1, 1, 2, 3, 8, 15, 16, 17, 18, 19, 20, 33))))


def number(any_of):
    """Returns a number's text, mostly a right one."""
    sign = any_of.choice(("", "", "-", "-", "+" if any_of.random() < 0.02 else ""))
    whole = any_of.choice(("0", any_of.choice("123456789") + digits(any_of), any_of.choice("123456789"), digits(any_of) if any_of.random() < 0.03 else "7"))
    fraction = any_of.choice(("", "", "." + digits(any_of), "." if any_of.random() < 0.02 else ""))
    power = any_of.choice("eE") + any_of.choice(("", "+", "-")) + digits(any_of)
    return sign + whole + fraction + any_of.choice(("", "", "", power))


def value(any_of, levels):
    """Returns the text of a value of at most so many levels."""
    space = lambda: any_of.choice(SPACES)
    kind = any_of.random()
    if levels == 0 or kind < 0.4:
        return any_of.choice((text, text, number, number, lambda it: it.choice(SPECIAL[-3:] if it.random() < 0.8 else SPECIAL)))(any_of)
    parts = range(any_of.choice((0, 1, 1, 2, 3, 5, 9)))
    if kind < 0.7:
        return f"[{space()}{f'{space()},{space()}'.join(value(any_of, levels - 1) for _ in parts)}{space()}]"
    key = lambda: any_of.choice(('"a"', '"b"', '"\\u0061"', '""')) if any_of.random() < 0.3 else text(any_of)
    return f"{{{space()}{f'{space()},'.join(f'{space()}{key()}{space()}:{space()}{value(any_of, levels - 1)}' for _ in parts)}{space()}}}"


def nested(any_of):
    """Returns containers inside one another, some of them about as many as are allowed."""
    count = any_of.choice((1, 7, 8, 9, 63, 64, 65, 199, 200, 201, 202, 260))
    opened = [any_of.choice(("[", "[1,", '{"k":', '{"a":[],"b":')) for _ in range(count)]
    closed = "".join("]" if it[0] == "[" else any_of.choice(("}", ',"z":0}')) for it in reversed(opened))
    return "".join(opened) + any_of.choice(("7", "[]", "{}", '""')) + closed


def long_number(any_of):
    count = any_of.choice((4299, 4300, 4301, 4302, 9000))
    return any_of.choice(("{}", "[-{}]", "{}.5", "[1,{}e7]", "[0.{}]", '{{"a":{}}}')).format("7" * count)


def edited(any_of, document):
    """Returns a document with some of its bytes changed."""
    for _ in range(any_of.choice((1, 1, 1, 2, 4))):
        at, end = sorted(any_of.randrange(len(document) + 1) for _ in range(2))
        end = min(end, at + any_of.choice((1, 1, 2, 30)))
        new = any_of.choice((bytes([any_of.choice(BYTES)]), b"", document[at:end] * 2, any_of.choice(BROKEN), bytes([any_of.randrange(256)])))
        document = any_of.choice((document[:at] + new + document[end:], document[:at] + new + document[at:], document[:at]))
    return document


def documents(any_of):
    """Yields documents without an end."""
    while True:
        kind = any_of.random()
        if kind < 0.02:
            yield any_of.choice((nested, nested, long_number))(any_of).encode()
        elif kind < 0.2:
            yield f"{any_of.choice(SPACES)}{any_of.choice((text, number))(any_of)}{any_of.choice(SPACES)}".encode()
        else:
            made = f"{any_of.choice(SPACES)}{value(any_of, any_of.choice((1, 2, 4, 6)))}{any_of.choice(SPACES)}".encode()
            yield made if kind < 0.6 else edited(any_of, made)


def inputs():
    """Returns the inputs of all tables, and each document that is named above, bare and in an array."""
    found = {*NAMED}
    found |= {b"[" + it + b"]" for it in found} | {b'{"k":' + it + b"}" for it in found} | {b" \n" + it + b"\t " for it in found}
    for path in glob.glob(f"{common.TOP}/crates/test_*/stdin"):
        lines = [it.split(" ", 2) for it in common.read(path).split("\n") if it.strip() and it[0] != "#"]
        # (`|` marks a place)
        found |= {common.decoded(it[2].replace("|", "", 1)) for it in lines if len(it) == 3}
    return sorted(found)
