"""The exception of the module, apart from it so that the C part can import it."""

import json


class JsonError(ValueError):
    """Why a document was rejected: `kind` (a number of jiter_c.h), `index` in bytes, `line`, `column`, `cause`."""

    def __init__(self, cause, kind, index, line, column):
        super().__init__(cause, kind, index, line, column)
        self.cause, self.kind, self.index, self.line, self.column = cause, kind, index, line, column

    def __str__(self):
        return f"{self.cause} at line {self.line} column {self.column}"


JsonError.__module__ = "safelorim"


def cause_of_key(key):
    return f"Detected duplicate key {json.dumps(key, ensure_ascii=False)}"
