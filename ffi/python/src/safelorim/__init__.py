"""JSON by libjiter, a proved parser: `loads`, also of truncated documents, `loads_lines`, and `Parser` for chunks.

The C part calls the library and makes Python's objects; nothing of it or of this file is proved. To write JSON, use
`dumps`: it is `json.dumps`.

    >>> loads(b'{"a": [1, 2.5]}')
    {'a': [1, 2.5]}
    >>> loads(b'{"a": [1, "be', partial="trailing-strings")
    {'a': [1, 'be']}
    >>> loads(b'{"a": 1, "a": 2}', unique=True)
    Traceback (most recent call last):
    safelorim.JsonError: Detected duplicate key "a" at line 1 column 14
"""

from json import dumps

from safelorim._core import Parser, loads, loads_lines
from safelorim._error import JsonError

__all__ = ["JsonError", "Parser", "dumps", "loads", "loads_lines"]
