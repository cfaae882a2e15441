"""Archives: a league as a file that anybody can read and check, with its sources, rules and results."""

import contextlib
import csv
import io
import os
import sqlite3
import tempfile
import zipfile
import zlib
from typing import Iterable, Iterator, NamedTuple, Sequence

from results.standings import Standing
from tools.faults import FAULTY, FILE, Fault, reading, writing
from tools.rules import MOST_SOURCE_BYTES

from . import older, tables
from .entries import hashed
from .schema import LATER, SCHEMA
from .store import Store, filled, told

# What reading an archive may come to that isn't one, or that somebody changed.
WRONG = (zipfile.BadZipFile, zlib.error, csv.Error, sqlite3.Error, LookupError, ValueError, TypeError, ArithmeticError,
         NotImplementedError, RuntimeError)
SOURCES = "sources/"
TABLE = "table.csv"
# A table that archives of the first version don't have.
NEW = "ending"
# The tables of the database, in an order in which rows name only rows before them.
KEPT = ("robot", "entry", "season", "ruling", "ending", "correction", "member", "worker", "seating", "battle", "removal",
        "removed", "publication", "standing", *LATER)
README = """\
This is an archive of a league of CROBOTS robots, as it was on {day}.

sources/HASH.r   the robots' sources, each named by the SHA-256 of its bytes
robot.csv        the robots that ever joined, by their ids
entry.csv        who joined, got other bytes, or left, on which day; copy numbers robots with the same bytes
season.csv       the seasons with the rules with which they began (JSON), in which program is the SHA-256 of the
                 program's file
ruling.csv       other rules that a season got later, when there were so many entries
ending.csv       how seasons ended: with which entry, and how many matches were missing; the last season may go on
correction.csv   entries that were taken back (other_day is empty) or got another day, and such days of seasons
member.csv       in which division a robot began a season
worker.csv       from where matches were taken that weren't played by the league itself
seating.csv      robots in the order of their seats, by their bytes, and the seed of their matches
battle.csv       the matches: in how many cycles each ended, and with which damage the robot of each seat
removal.csv      why matches were taken back, and removed.csv has these matches
publication.csv  the tables that were published, and standing.csv has their rows; hash is that of all rows that were
                 shown first then: those that have the publication's number, and of it all but the hash itself
handed.csv       names that robots have beside their ids, and the folders from which they were taken
code.csv         the SHA-256 of what sources compile to, without names, by which copies are found: by which program
table.csv        the table of the last season

A match is played again by

    crobots -m1 -lCYCLES -sSEED -pPROFILE -fNUMBER sources/HASH.r sources/HASH.r

where limit and profile are those of the rules. 100 matches, drawn by chance, are replayed and compared by

    crobots-league verify 100 {name}

and all by --all in place of 100. It says what is missing and what is beyond the rules, and compares hashes and tables.
If you have an older archive, or wrote down the hash of one, --since OLDER or --since HASH says what was changed since.
"""


def write(store: Store, standings: Iterable[Standing], path: str, day: str) -> None:
    """Writes an archive in one piece. The same league, on the same day, has the same bytes."""
    folder = os.path.dirname(path) or "."
    with writing(path), tempfile.NamedTemporaryFile(dir=folder, prefix=".archive-", delete=False) as file:
        try:
            with zipfile.ZipFile(file, "w", zipfile.ZIP_DEFLATED) as archive:
                fill(store, standings, archive, os.path.basename(path), day)
            os.chmod(file.name, 0o644)
            os.replace(file.name, path)
        except BaseException:
            os.unlink(file.name)
            raise


def fill(store: Store, standings: Iterable[Standing], archive: zipfile.ZipFile, name: str, day: str) -> None:
    """Writes all members of an archive."""
    with member(archive, "README.txt", day) as file:
        file.write(README.format(day=day, name=name))
    with member(archive, TABLE, day) as file:
        file.write(tables.comma([*standings]))
    for kept in KEPT:
        rows = store.database.execute(f"SELECT * FROM {kept} ORDER BY 1, 2, 3")
        with member(archive, f"{kept}.csv", day) as file:
            writer = csv.writer(file, lineterminator="\n")
            writer.writerow([column[0] for column in rows.description])
            writer.writerows(rows)
    for sha256, source in store.database.execute("SELECT sha256, bytes FROM source ORDER BY sha256"):
        archive.writestr(dated(f"{SOURCES}{sha256}.r", day), source)


@contextlib.contextmanager
def member(archive: zipfile.ZipFile, name: str, day: str) -> Iterator[io.TextIOWrapper]:
    """A member that is written as text."""
    with archive.open(dated(name, day), "w", force_zip64=True) as file:
        text = io.TextIOWrapper(file, encoding="utf-8", newline="")
        yield text
        text.flush()
        text.detach()


def dated(name: str, day: str) -> zipfile.ZipInfo:
    """A member's head, of a day and not of now."""
    year, month, of_month = map(int, day.split("-"))
    head = zipfile.ZipInfo(name, (max(year, 1980), month, of_month, 0, 0, 0))
    head.compress_type = zipfile.ZIP_DEFLATED
    head.external_attr = 0o644 << 16
    return head


@contextlib.contextmanager
def read(path: str) -> Iterator[tuple[Store, str]]:
    """An archive as a league, in a folder that is removed in the end; and its table."""
    try:
        if not os.path.isfile(path) and os.path.exists(path):
            raise Fault(f"{path} is no file", FILE)
        with reading(path), tempfile.TemporaryDirectory(prefix="crobots-") as folder, zipfile.ZipFile(path) as archive:
            whole(archive)
            kept = tables_of({*archive.namelist()})
            with filled(os.path.join(folder, "archive.db"), older.TABLES if kept == older.KEPT else SCHEMA) as database:
                store = Store(folder, database)
                with told(path), store.change():
                    load(store, archive, kept)
                older.renew(database)
                yield store, archive.read(TABLE).decode()
    except WRONG as why:
        raise Fault(f"{path} is no archive of a league: {shown(str(why))}", FILE) from why


def tables_of(names: set[str]) -> Sequence[str]:
    """The tables that an archive with these members has to have: those of its version."""
    if f"{NEW}.csv" not in names:
        return older.KEPT
    return KEPT if any(f"{table}.csv" in names for table in LATER) else KEPT[:-len(LATER)]


def shown(text: str) -> str:
    """A text of an archive as it may be shown: in one line, and with no sign that a terminal obeys."""
    return "".join(sign if sign.isprintable() else "?" for sign in text)


def whole(archive: zipfile.ZipFile) -> None:
    """Refuses an archive that has a file twice: who reads it might read another one."""
    names = archive.namelist()
    if twice := {name for name in names if names.count(name) > 1} if len({*names}) < len(names) else set():
        raise Fault(f"{shown(min(twice))} is there twice", FAULTY)


def load(store: Store, archive: zipfile.ZipFile, tables: Iterable[str]) -> None:
    """Reads all members of an archive."""
    for member in archive.infolist():
        if member.filename.startswith(SOURCES):
            source = archive.read(member) if member.file_size <= MOST_SOURCE_BYTES else b""
            if member.filename != f"{SOURCES}{hashed(source)}.r":
                raise Fault(f"{shown(member.filename)} has other bytes than its name says", FAULTY)
            store.run("INSERT INTO source VALUES (?, ?)", hashed(source), source)
    for kept in tables:
        columns = [Column(name, not must, kind == "REAL")
                   for _, name, kind, must, *_ in store.rows(f"PRAGMA table_info({kept})")]
        with archive.open(f"{kept}.csv") as file:
            rows = csv.reader(io.TextIOWrapper(file, encoding="utf-8", newline=""))
            if next(rows, []) != [column.name for column in columns]:
                raise ValueError(f"{kept}.csv has other columns")
            query = f"INSERT INTO {kept} VALUES ({', '.join('?' * len(columns))})"
            try:
                store.database.executemany(query, (valued(row, columns) for row in rows))
            except sqlite3.IntegrityError as why:
                raise Fault(f"{kept}.csv {refused(str(why))}", FAULTY) from why


def refused(why: str) -> str:
    """Why the database doesn't take a row."""
    words = {"UNIQUE": "has a row twice", "FOREIGN": "has a row that names one that isn't there"}
    return words.get(why.partition(" ")[0], f"has a row that can't be: {shown(why)}")


class Column(NamedTuple):
    """A column of a table: whether it may have no value, and whether it has numbers with a point."""

    name: str
    may_lack: bool
    is_real: bool


def valued(row: list[str], columns: Sequence[Column]) -> list[str | float | None]:
    """The values of a row: a cell is empty if there is no value, unless there has to be one."""
    if any(not cell.isprintable() for cell in row):
        raise ValueError("a cell has a sign that can't be shown")
    cells = zip(row, columns, strict=True)
    return [None if not cell and column.may_lack else float(cell) if column.is_real else cell for cell, column in cells]
