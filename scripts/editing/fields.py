"""The fields of messages, read by their schema: one that lacks, or is something else, is named."""

from __future__ import annotations

from typing import Any, Callable, TypeVar

Kind = TypeVar("Kind")


class Wrong(Exception):
    """A field that isn't as the protocol has it."""


class Fields:
    """An object of a message."""

    def __init__(self, value: Any, path: str = "params") -> None:
        if not isinstance(value, dict):
            raise Wrong(f"{path} is no object")
        self._value: dict[str, Any] = value
        self._path = path

    def _of(self, name: str, kind: type[Kind], told: str) -> Kind:
        value = self._value.get(name)
        if not isinstance(value, kind) or (kind is int and isinstance(value, bool)):
            raise Wrong(f"{self._path}.{name} is no {told}")
        return value

    def has(self, name: str) -> bool:
        return self._value.get(name) is not None

    def text(self, name: str) -> str:
        return self._of(name, str, "string")

    def number(self, name: str) -> int:
        return self._of(name, int, "number")

    def truth(self, name: str, default: bool = False) -> bool:
        return self._of(name, bool, "boolean") if self.has(name) else default

    def text_or(self, name: str, default: str) -> str:
        return self.text(name) if self.has(name) else default

    def number_or(self, name: str, default: int) -> int:
        return self.number(name) if self.has(name) else default

    def fields(self, name: str) -> Fields:
        return Fields(self._value.get(name), f"{self._path}.{name}")

    def fields_or(self, name: str) -> Fields:
        """An object that may lack: an empty one then."""
        return self.fields(name) if self.has(name) else Fields({}, f"{self._path}.{name}")

    def items(self, name: str) -> list[Any]:
        """A list that may lack: an empty one then."""
        return self._of(name, list, "list") if self.has(name) else []

    def texts(self, name: str) -> list[str]:
        """The strings of a list that may lack."""
        for number, one in enumerate(self.items(name)):
            if not isinstance(one, str):
                raise Wrong(f"{self._path}.{name}[{number}] is no string")
        return self.items(name)

    def all(self, name: str) -> list[Fields]:
        """The objects of a list."""
        return [Fields(value, f"{self._path}.{name}[{number}]") for number, value in enumerate(self.items(name))]

    def changed(self, change: Callable[[Any], Any]) -> Fields:
        """An object of other values."""
        return Fields(change(self._value), self._path)

    def value(self, name: str) -> Any:
        return self._value.get(name)
