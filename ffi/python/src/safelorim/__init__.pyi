from json import dumps as dumps
from typing import Any, Callable, Literal, Optional, Union, final

_Data = Union[str, bytes, bytearray, memoryview]
_Partial = Optional[Literal["off", "on", "trailing-strings"]]
_Float = Optional[Callable[[str], Any]]

__all__ = ["JsonError", "Parser", "dumps", "loads", "loads_lines"]

class JsonError(ValueError):
    cause: str
    kind: int
    index: int
    line: int
    column: int
    def __init__(self, cause: str, kind: int, index: int, line: int, column: int) -> None: ...

def loads(data: _Data, /, *, partial: _Partial = None, unique: bool = False, non_finite: bool = False, float: _Float = None) -> Any: ...
def loads_lines(
    data: _Data, /, *, unique: bool = False, non_finite: bool = False, float: _Float = None
) -> tuple[list[Any], dict[int, JsonError]]: ...
@final
class Parser:
    def __new__(
        cls, *, partial: _Partial = "trailing-strings", unique: bool = False, non_finite: bool = False, float: _Float = None
    ) -> Parser: ...
    def push(self, data: _Data, /) -> None: ...
    def value(self) -> Any: ...
    def error(self) -> Optional[JsonError]: ...
    def finish(self) -> Any: ...
