"""The database of a league: one file of SQLite, which is whole after a kill at any instant.

It is written ahead (WAL) and forced to the disk with each transaction. So what was reported as done stays done, also when
the power fails. Readers never wait for a writer."""

import contextlib
import os
import shutil
import sqlite3
import tempfile
from dataclasses import dataclass
from typing import Any, Iterator
from urllib.parse import quote

from tools.faults import FILE, Fault, writing

from .older import FIRST, renew
from .schema import APPLICATION, SCHEMA, VERSION

NAME = "league.db"
PATIENCE = 60.0


@dataclass(frozen=True)
class Store:
    """An open database, in its folder."""

    folder: str
    database: sqlite3.Connection

    def rows(self, query: str, *values: Any) -> list[Any]:
        return self.database.execute(query, values).fetchall()

    def one(self, query: str, *values: Any) -> Any:
        """The only row, or None."""
        return self.database.execute(query, values).fetchone()

    def run(self, query: str, *values: Any) -> int:
        """Changes something; answers the number of the row that was added last."""
        return self.database.execute(query, values).lastrowid or 0

    def next(self) -> int:
        """The number of the publication that will show first what is added now."""
        return int(self.one("SELECT coalesce(max(number), 0) + 1 FROM publication")[0])

    @contextlib.contextmanager
    def change(self) -> Iterator[None]:
        """All or nothing of what is done inside."""
        self.database.execute("BEGIN IMMEDIATE")
        try:
            yield
        except BaseException:
            # a disk that is full ends the transaction by itself
            if self.database.in_transaction:
                self.database.execute("ROLLBACK")
            raise
        self.database.execute("COMMIT")

    @contextlib.contextmanager
    def view(self) -> Iterator[None]:
        """What is read inside is the state of one instant."""
        self.database.execute("BEGIN")
        try:
            yield
        finally:
            self.database.execute("ROLLBACK")


def path_of(folder: str) -> str:
    return os.path.join(folder, NAME)


@contextlib.contextmanager
def made(folder: str) -> Iterator[Store]:
    """Makes the folder of a new league. Its database appears when what is done inside is done, in one piece."""
    path = path_of(folder)
    with writing(path):
        os.makedirs(folder, exist_ok=True)
        if os.path.exists(path):
            raise Fault(f"{folder} is a league already", FILE)
        begun = tempfile.mkdtemp(dir=folder, prefix=".new-")
        try:
            with filled(os.path.join(begun, NAME)) as database:
                yield Store(folder, database)
            os.link(os.path.join(begun, NAME), path)
        finally:
            shutil.rmtree(begun, ignore_errors=True)


@contextlib.contextmanager
def filled(path: str, tables: str = SCHEMA) -> Iterator[sqlite3.Connection]:
    """A new database with these tables."""
    with told(path), contextlib.closing(sqlite3.connect(path, isolation_level=None)) as database:
        database.execute("PRAGMA journal_mode = WAL")
        database.execute("PRAGMA foreign_keys = ON")
        version = VERSION if tables == SCHEMA else FIRST
        marks = f"PRAGMA application_id = {APPLICATION}; PRAGMA user_version = {version};"
        database.executescript(f"BEGIN; {tables} {marks} COMMIT")
        yield database


@contextlib.contextmanager
def opened(folder: str, path: str = "") -> Iterator[Store]:
    """Opens a league."""
    path = path or path_of(folder)
    if not os.path.isfile(path):
        raise Fault(f"{folder} is no league", FILE)
    with told(path), contextlib.closing(connected(path)) as database:
        yield Store(folder, database)


def connected(path: str) -> sqlite3.Connection:
    """Opens a database. One in a folder that can't be written is read as it stands, if it is whole."""
    frozen = not os.access(os.path.dirname(path) or ".", os.W_OK) and not os.path.exists(f"{path}-wal")
    mode = "mode=ro&immutable=1" if frozen else "mode=rw" if os.access(path, os.W_OK) else "mode=ro"
    address = f"file:{escaped(path)}?{mode}"
    database = sqlite3.connect(address, timeout=PATIENCE, isolation_level=None, uri=True)
    try:
        database.execute("PRAGMA synchronous = FULL")
        database.execute("PRAGMA foreign_keys = ON")
        if database.execute("PRAGMA application_id").fetchone()[0] != APPLICATION:
            raise Fault(f"{path} is no database of a league", FILE)
        return renewed(database, path, mode == "mode=rw")
    except BaseException:
        database.close()
        raise


def renewed(database: sqlite3.Connection, path: str, may_write: bool) -> sqlite3.Connection:
    """A database of this version: one of an earlier version becomes it, if need be a copy of it in memory."""
    version = database.execute("PRAGMA user_version").fetchone()[0]
    if version == VERSION:
        return database
    if version > VERSION:
        raise Fault(f"{path} is of a later version of this script", FILE)
    if may_write:
        renew(database)
        return database
    copy = sqlite3.connect(":memory:", isolation_level=None)
    with contextlib.closing(database):
        database.backup(copy)
    renew(copy)
    copy.execute("PRAGMA query_only = ON")
    return copy


def escaped(path: str) -> str:
    """A path as a part of an address."""
    return quote(os.fsencode(os.path.abspath(path)))


@contextlib.contextmanager
def told(path: str) -> Iterator[None]:
    """Says what is wrong with a database."""
    try:
        yield
    except sqlite3.Error as why:
        raise Fault(f"cannot use {path}: {why}", FILE) from why
