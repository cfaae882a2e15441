"""Archives as a forger has them: rows of texts that may be changed, and the chain of hashes, worked out as docs/archives.md
says, and by nothing of the scripts."""

from __future__ import annotations

import copy
import csv
import hashlib
import io
import zipfile
from typing import Any

# The tables in the order in which they are hashed, with the columns by which their rows are sorted.
KEYS = {
    "robot": ("id",), "entry": ("number",), "season": ("number",), "ruling": ("number",), "ending": ("season",),
    "correction": ("number",), "member": ("season", "robot"), "worker": ("number",), "seating": ("number",),
    "battle": ("seating", "number"), "removal": ("number",), "removed": ("removal", "seating", "number"),
    "publication": ("number",), "standing": ("publication", "robot"), "handed": ("number",), "code": ("sha256", "profile", "program"),
}
TEXTS = {"id", "robot", "sha256", "program"}
Row = dict[str, str]


class Archive:
    """An archive's tables, and its other files as they are."""

    def __init__(self, path: str) -> None:
        self.tables: dict[str, list[Row]] = {}
        self.columns: dict[str, list[str]] = {}
        self.files: dict[str, bytes] = {}
        with zipfile.ZipFile(path) as it:
            for name in it.namelist():
                table = name.removesuffix(".csv")
                if table in KEYS:
                    rows = csv.DictReader(io.StringIO(it.read(name).decode()))
                    self.tables[table] = [*rows]
                    self.columns[table] = [*(rows.fieldnames or ())]
                else:
                    self.files[name] = it.read(name)

    def copy(self) -> Archive:
        return copy.deepcopy(self)

    def write(self, path: str) -> str:
        with zipfile.ZipFile(path, "w") as it:
            for name, content in self.files.items():
                it.writestr(name, content)
            for table, rows in self.tables.items():
                text = io.StringIO()
                writer = csv.DictWriter(text, self.columns[table], lineterminator="\n")
                writer.writeheader()
                writer.writerows(rows)
                it.writestr(f"{table}.csv", text.getvalue())
        return path

    def linked(self) -> Archive:
        """Works out all hashes of the chain anew, and puts them in."""
        before = ""
        since = 0
        for row in sorted(self.tables["publication"], key=lambda it: number(it["number"])):
            if row["hash"]:
                row["before"] = before
                before = row["hash"] = self.hashed(since, number(row["number"]))
                since = number(row["number"])
        return self

    def hashed(self, since: int, until: int) -> str:
        """The hash of the rows that a publication shows first."""
        found = []
        for place, (table, keys) in enumerate(KEYS.items()):
            for publication, cells, row in self._rows(table):
                if since < publication <= until:
                    key = tuple(row[it] if it in TEXTS else number(row[it]) for it in keys)
                    found.append((publication, place, key, row.get("stands", 0), "\t".join([table, *cells]) + "\n"))
        text = "crobots league 1\n" + "".join(it[-1] for it in sorted(found, key=lambda it: it[:4]))
        return hashlib.sha256(text.encode()).hexdigest()

    def _rows(self, table: str) -> list[tuple[int, list[str], Any]]:
        """The rows of a table with the publication that shows each first, and with their cells as they are hashed."""
        rows = self.tables.get(table, [])
        if table == "publication":
            return [(number(it["number"]), [it[name] for name in self.columns[table] if name != "hash"], it) for it in rows]
        if table == "removed":
            when = {it["number"]: number(it["publication"]) for it in self.tables["removal"]}
            return [(when.get(it["removal"], 0), [it["removal"], it["seating"], it["number"]], it) for it in rows]
        if table == "battle":
            gone = [{**it, "stands": (0, number(it["removal"]))} for it in self.tables["removed"]]
            rows = [*gone, *({**it, "stands": (1, 0)} for it in rows)]
        return [(number(it["publication"]), [it[name] for name in self.columns[table]], it) for it in rows]


def number(text: str) -> int:
    """A number, however it is written."""
    return int(float(text)) if text.strip("-").replace(".", "").isdigit() else 0
