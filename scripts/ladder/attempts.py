"""A limit of attempts: who gives wrong tokens often, or has much compiled, has to wait."""

import threading
import time

MOST, SECONDS, ADDRESSES = 20, 60.0, 10_000


class Attempts:
    """How often something was tried of late, by addresses or names. Of these only so many are kept, the last ones."""

    def __init__(self, most: int = MOST) -> None:
        self._most = most
        self._lock = threading.Lock()
        self._times: dict[str, list[float]] = {}

    def are_many(self, address: str) -> bool:
        """Whether an address has to wait."""
        with self._lock:
            return len(self._fresh(address)) >= self._most

    def count(self, address: str) -> None:
        """Takes note of an attempt."""
        with self._lock:
            found = self._fresh(address)
            self._times.pop(address, None)
            self._times[address] = [*found, time.monotonic()][-self._most:]
            while len(self._times) > ADDRESSES:
                del self._times[next(iter(self._times))]

    def _fresh(self, address: str) -> list[float]:
        return [at for at in self._times.get(address, []) if at > time.monotonic() - SECONDS]
