"""Databases of earlier versions: how they become those of this one.

The first one had no chain of publications, the second one no names of robots in it, and no folders from which they came."""

import sqlite3

from .schema import LATER, SCHEMA, VERSION
from .texts import text

FIRST, SECOND = 1, 2
# The tables of the first version, in an order in which rows name only rows before them.
KEPT = ("robot", "entry", "season", "member", "seating", "battle", "publication", "standing")
TABLES = """
CREATE TABLE source (sha256 TEXT PRIMARY KEY, bytes BLOB NOT NULL) WITHOUT ROWID;
CREATE TABLE robot (id TEXT PRIMARY KEY, author TEXT NOT NULL) WITHOUT ROWID;
CREATE TABLE entry (number INTEGER PRIMARY KEY, day TEXT NOT NULL, what TEXT NOT NULL, robot TEXT NOT NULL,
    sha256 TEXT NOT NULL, copy INTEGER NOT NULL);
CREATE TABLE season (number INTEGER PRIMARY KEY, name TEXT NOT NULL, begun TEXT NOT NULL, ended TEXT,
    first_entry INTEGER NOT NULL, last_entry INTEGER, rules TEXT NOT NULL);
CREATE TABLE member (season INTEGER NOT NULL, robot TEXT NOT NULL, division INTEGER NOT NULL);
CREATE TABLE seating (number INTEGER PRIMARY KEY, hashes TEXT NOT NULL, seed TEXT NOT NULL, cycles INTEGER NOT NULL,
    profile INTEGER NOT NULL, program TEXT NOT NULL);
CREATE TABLE battle (seating INTEGER NOT NULL, number INTEGER NOT NULL, cycles INTEGER NOT NULL,
    damage1 INTEGER NOT NULL, damage2 INTEGER NOT NULL, damage3 INTEGER, damage4 INTEGER, day TEXT NOT NULL);
CREATE TABLE publication (number INTEGER PRIMARY KEY, season INTEGER NOT NULL, day TEXT NOT NULL,
    final INTEGER NOT NULL);
CREATE TABLE standing (publication INTEGER NOT NULL, robot TEXT NOT NULL, sha256 TEXT NOT NULL,
    division INTEGER NOT NULL, rank INTEGER NOT NULL, played INTEGER NOT NULL, won INTEGER NOT NULL,
    tied INTEGER NOT NULL, lost INTEGER NOT NULL, points TEXT NOT NULL, rating REAL NOT NULL, low REAL NOT NULL,
    high REAL NOT NULL);
"""
# What was there is shown first by the next publication. Which rules a season had before, and how much was missing when
# it ended, isn't known.
NEXT = "(SELECT coalesce(max(number), 0) + 1 FROM old_publication)"
MOVES = f"""
INSERT INTO source SELECT sha256, bytes FROM old_source;
INSERT INTO robot SELECT id, author, {NEXT} FROM old_robot;
INSERT INTO entry SELECT number, day, what, robot, sha256, copy, {NEXT} FROM old_entry;
INSERT INTO season SELECT number, name, begun, first_entry, rules, {NEXT} FROM old_season;
INSERT INTO ruling SELECT number, begun, number, first_entry, '', {NEXT} FROM old_season;
INSERT INTO ending SELECT number, ended, last_entry, NULL, {NEXT} FROM old_season WHERE ended IS NOT NULL;
INSERT INTO member SELECT season, robot, division, {NEXT} FROM old_member;
INSERT INTO seating SELECT number, hashes, seed, cycles, profile, program, {NEXT} FROM old_seating;
INSERT INTO battle SELECT seating, number, cycles, damage1, damage2, damage3, damage4, day, NULL, {NEXT}
    FROM old_battle;
INSERT INTO publication SELECT number, season, day, final, NULL, 1, '', '' FROM old_publication;
INSERT INTO standing SELECT publication, robot, sha256, division, rank, played, won, tied, lost, points, rating, low,
    high, NULL FROM old_standing;
"""


def renew(database: sqlite3.Connection) -> None:
    """Makes a database of an earlier version one of this version, in one piece; another one stays as it is."""
    database.execute("PRAGMA foreign_keys = OFF")
    database.execute("BEGIN IMMEDIATE")
    try:
        version = database.execute("PRAGMA user_version").fetchone()[0]
        if version == FIRST:
            moved(database)
        elif version == SECOND:
            extended(database)
    except BaseException:
        database.execute("ROLLBACK")
        raise
    database.execute("COMMIT")
    database.execute("PRAGMA foreign_keys = ON")


def moved(database: sqlite3.Connection) -> None:
    """Moves all rows into tables of this version."""
    tables = ("source", *KEPT)
    renaming = (f"ALTER TABLE {table} RENAME TO old_{table}" for table in tables)
    removing = (f"DROP TABLE old_{table}" for table in reversed(tables))
    for statement in (*renaming, *SCHEMA.split(";\n"), *MOVES.split(";\n"), *removing, f"PRAGMA user_version = {VERSION}"):
        database.execute(statement)


def extended(database: sqlite3.Connection) -> None:
    """Adds the tables that came last. Names and folders that were kept are shown first by the next publication; what sources compile
    to is found anew, since nobody knows by which program it was."""
    is_there = database.execute("SELECT 1 FROM sqlite_master WHERE name = 'handed'").fetchone()
    rows = database.execute("SELECT number, folder, robot, name FROM handed").fetchall() if is_there else []
    for table in LATER:
        database.execute(f"DROP TABLE IF EXISTS {table}")
    for statement in SCHEMA.split(";\n"):
        if any(f"CREATE TABLE {table} " in statement for table in LATER):
            database.execute(statement)
    next_one, = database.execute("SELECT coalesce(max(number), 0) + 1 FROM publication").fetchone()
    database.executemany("INSERT INTO handed VALUES (?, ?, ?, ?, ?)",
                         [(number, text(folder), robot, text(name), next_one) for number, folder, robot, name in rows])
    database.execute(f"PRAGMA user_version = {VERSION}")
