"""The tables that a ladder adds to its league's database. No archive has them, so nothing of them is published.

A token is kept as its hash alone. Rows of the audit are added and never changed."""

from leagues.store import Store

SCHEMA = """
CREATE TABLE IF NOT EXISTS ladder_author (number INTEGER PRIMARY KEY, name TEXT NOT NULL UNIQUE COLLATE NOCASE,
    team TEXT NOT NULL, made REAL NOT NULL);
-- kind: a link is what an author keeps, a session is what a browser has; of the organiser there is no author
CREATE TABLE IF NOT EXISTS ladder_token (hash TEXT PRIMARY KEY, kind TEXT NOT NULL CHECK (kind IN ('link', 'session')),
    author INTEGER REFERENCES ladder_author, made REAL NOT NULL, ended REAL) WITHOUT ROWID;
CREATE TABLE IF NOT EXISTS ladder_owner (robot TEXT PRIMARY KEY COLLATE NOCASE REFERENCES robot,
    author INTEGER NOT NULL REFERENCES ladder_author) WITHOUT ROWID;
-- who did what to what, when, and from which address, as a hash
CREATE TABLE IF NOT EXISTS ladder_audit (number INTEGER PRIMARY KEY, at REAL NOT NULL, who TEXT NOT NULL, what TEXT NOT NULL,
    of TEXT NOT NULL, address TEXT NOT NULL);
-- the key of the hashes of addresses
CREATE TABLE IF NOT EXISTS ladder_key (key BLOB NOT NULL);
-- the terms of a hand-in: the last row counts
CREATE TABLE IF NOT EXISTS ladder_terms (number INTEGER PRIMARY KEY, text TEXT NOT NULL);
-- the seeds of finals: whether one was announced, and which season is its final
CREATE TABLE IF NOT EXISTS ladder_final (number INTEGER PRIMARY KEY, seed TEXT NOT NULL, announced INTEGER NOT NULL, season INTEGER REFERENCES season);
-- where a robot was at the end of each day
CREATE TABLE IF NOT EXISTS ladder_rank (robot TEXT NOT NULL REFERENCES robot, day TEXT NOT NULL, rank INTEGER NOT NULL,
    PRIMARY KEY (robot, day)) WITHOUT ROWID;
"""
TABLES = ("ladder_author", "ladder_token", "ladder_owner", "ladder_audit", "ladder_key", "ladder_terms", "ladder_final", "ladder_rank")


def ready(store: Store) -> None:
    """Sees to it that the tables are there."""
    if not is_ready(store):
        store.database.executescript(f"BEGIN IMMEDIATE; {SCHEMA} INSERT INTO ladder_key SELECT randomblob(32) "
                                     "WHERE NOT EXISTS (SELECT 1 FROM ladder_key); COMMIT")


def is_ready(store: Store) -> bool:
    """Reports whether the tables are there."""
    found = store.one("SELECT count(*) FROM sqlite_master WHERE type = 'table' AND name LIKE 'ladder\\_%' ESCAPE '\\'")
    return bool(found[0] == len(TABLES))
