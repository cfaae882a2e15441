"""Lines, columns and paths as a client of the debug adapter has them: counted from 0 or from 1, paths or URIs."""

import pathlib
import urllib.parse
from dataclasses import dataclass
from typing import Any

from .fields import Fields

LINES, COLUMNS = {"line", "endLine"}, {"column", "endColumn"}


@dataclass(frozen=True)
class Counting:
    """What the first line and the first column of a file are for a client, and whether it writes files as URIs."""

    line: int = 1
    column: int = 1
    has_uris: bool = False

    def read(self, value: Any) -> Any:
        """What a client wrote, as the adapter has it."""
        return self._changed(value, 1, path_of)

    def written(self, value: Any) -> Any:
        """What the adapter has, as the client wants it."""
        return self._changed(value, -1, uri_of)

    def _changed(self, value: Any, way: int, named: Any) -> Any:
        if self == Counting():
            return value
        if isinstance(value, list):
            return [self._changed(one, way, named) for one in value]
        if not isinstance(value, dict):
            return value
        return {name: self._field(name, one, way, named) for name, one in value.items()}

    def _field(self, name: str, value: Any, way: int, named: Any) -> Any:
        if isinstance(value, int) and not isinstance(value, bool):
            return value + way * (1 - self.line if name in LINES else 1 - self.column if name in COLUMNS else 0)
        if isinstance(value, str) and name == "path" and self.has_uris:
            return named(value)
        return self._changed(value, way, named)


def counting_of(given: Fields) -> Counting:
    """How a client counts, by its first request."""
    line, column = (int(given.truth(name, True)) for name in ("linesStartAt1", "columnsStartAt1"))
    return Counting(line, column, given.text_or("pathFormat", "path") == "uri")


def path_of(uri: str) -> str:
    try:
        return urllib.parse.unquote(urllib.parse.urlsplit(uri).path)
    except ValueError:
        return uri


def uri_of(path: str) -> str:
    return pathlib.Path(path).as_uri()
