"""The tables of a league's database. Rows are added and never changed, so that what was shown can be shown again.

Only the hash of a publication is written into its row when that is there, and matches that are taken back move."""

from tools.rules import MOST_ROBOTS

APPLICATION = 0x43524F42
VERSION = 3
# The columns that have the damage of each seat, which SCHEMA has too: with more seats it is another version.
DAMAGES = [f"damage{seat}" for seat in range(1, MOST_ROBOTS + 1)]
DAMAGE = ", ".join(DAMAGES)

SCHEMA = """
CREATE TABLE source (sha256 TEXT PRIMARY KEY, bytes BLOB NOT NULL) WITHOUT ROWID;
-- publication, here and in all tables that follow: the number of the first one that shows the row
-- each robot that ever joined; its id is never given again
CREATE TABLE robot (id TEXT PRIMARY KEY, author TEXT NOT NULL, publication INTEGER NOT NULL) WITHOUT ROWID;
-- what happened, in its order: a robot joined, got other bytes, or left; copy: how many others had these bytes before
CREATE TABLE entry (number INTEGER PRIMARY KEY, day TEXT NOT NULL,
    what TEXT NOT NULL CHECK (what IN ('add', 'change', 'withdraw')), robot TEXT NOT NULL REFERENCES robot,
    sha256 TEXT NOT NULL REFERENCES source, copy INTEGER NOT NULL, publication INTEGER NOT NULL);
-- first_entry: how many entries there were when it began
CREATE TABLE season (number INTEGER PRIMARY KEY, name TEXT NOT NULL UNIQUE, begun TEXT NOT NULL,
    first_entry INTEGER NOT NULL, rules TEXT NOT NULL, publication INTEGER NOT NULL);
-- a season got other rules, when there were so many entries; no rules: there were others before, which aren't known
CREATE TABLE ruling (number INTEGER PRIMARY KEY, day TEXT NOT NULL, season INTEGER NOT NULL REFERENCES season,
    entries INTEGER NOT NULL, rules TEXT NOT NULL, publication INTEGER NOT NULL);
-- a season ended, when there were so many entries, and so many matches were missing
CREATE TABLE ending (season INTEGER PRIMARY KEY REFERENCES season, day TEXT NOT NULL, last_entry INTEGER NOT NULL,
    missing INTEGER, publication INTEGER NOT NULL);
-- an entry was taken back, or got another day, as the beginning or the end of a season may, too; of: its number
CREATE TABLE correction (number INTEGER PRIMARY KEY, day TEXT NOT NULL,
    what TEXT NOT NULL CHECK (what IN ('entry', 'begin', 'end')), of INTEGER NOT NULL, other_day TEXT,
    why TEXT NOT NULL, entries INTEGER NOT NULL, publication INTEGER NOT NULL);
CREATE TABLE member (season INTEGER NOT NULL REFERENCES season, robot TEXT NOT NULL REFERENCES robot,
    division INTEGER NOT NULL, publication INTEGER NOT NULL, PRIMARY KEY (season, robot)) WITHOUT ROWID;
-- from where matches were taken that weren't played here
CREATE TABLE worker (number INTEGER PRIMARY KEY, name TEXT NOT NULL UNIQUE, publication INTEGER NOT NULL);
-- robots in their seats, by their bytes, and the seed of their matches; program: the hash of what plays the season
CREATE TABLE seating (number INTEGER PRIMARY KEY, hashes TEXT NOT NULL, seed TEXT NOT NULL, cycles INTEGER NOT NULL,
    profile INTEGER NOT NULL, program TEXT NOT NULL, publication INTEGER NOT NULL,
    UNIQUE (seed, hashes, cycles, profile, program));
-- a match: after how many cycles it ended, and with which damage the robot of each seat
CREATE TABLE battle (seating INTEGER NOT NULL REFERENCES seating, number INTEGER NOT NULL, cycles INTEGER NOT NULL,
    damage1 INTEGER NOT NULL, damage2 INTEGER NOT NULL, damage3 INTEGER, damage4 INTEGER, day TEXT NOT NULL,
    worker INTEGER REFERENCES worker, publication INTEGER NOT NULL, PRIMARY KEY (seating, number)) WITHOUT ROWID;
-- matches were taken back: which ones, and why
CREATE TABLE removal (number INTEGER PRIMARY KEY, day TEXT NOT NULL, what TEXT NOT NULL, why TEXT NOT NULL,
    publication INTEGER NOT NULL);
-- those matches; the publication is the one that showed them first
CREATE TABLE removed (removal INTEGER NOT NULL REFERENCES removal, seating INTEGER NOT NULL REFERENCES seating,
    number INTEGER NOT NULL, cycles INTEGER NOT NULL, damage1 INTEGER NOT NULL, damage2 INTEGER NOT NULL,
    damage3 INTEGER, damage4 INTEGER, day TEXT NOT NULL, worker INTEGER REFERENCES worker,
    publication INTEGER NOT NULL, PRIMARY KEY (removal, seating, number)) WITHOUT ROWID;
-- a table as it was shown on a day; final: as its season ended; missing: how many matches were; scale: that of the
-- ratings; before: the hash of the publication before, and hash: the hash of all rows that it shows first
CREATE TABLE publication (number INTEGER PRIMARY KEY, season INTEGER NOT NULL REFERENCES season, day TEXT NOT NULL,
    final INTEGER NOT NULL, missing INTEGER, scale INTEGER NOT NULL, before TEXT NOT NULL, hash TEXT NOT NULL);
-- close: whether the points may be those of the robot above; no value by the first scale, whose intervals say it
CREATE TABLE standing (publication INTEGER NOT NULL REFERENCES publication, robot TEXT NOT NULL REFERENCES robot,
    sha256 TEXT NOT NULL, division INTEGER NOT NULL, rank INTEGER NOT NULL, played INTEGER NOT NULL,
    won INTEGER NOT NULL, tied INTEGER NOT NULL, lost INTEGER NOT NULL, points TEXT NOT NULL,
    rating REAL NOT NULL, low REAL NOT NULL, high REAL NOT NULL, close INTEGER,
    PRIMARY KEY (publication, robot)) WITHOUT ROWID;
"""
# The tables that came last.
LATER = ("handed", "code")
SCHEMA += """
-- a name that a robot has beside its id, and the folder from which it was taken, if any
CREATE TABLE handed (number INTEGER PRIMARY KEY, folder TEXT NOT NULL, robot TEXT NOT NULL REFERENCES robot,
    name TEXT NOT NULL, publication INTEGER NOT NULL);
-- what a source compiles to by a program: the hash of its code without names, by which copies are found
CREATE TABLE code (sha256 TEXT NOT NULL REFERENCES source, profile INTEGER NOT NULL, program TEXT NOT NULL,
    hash TEXT NOT NULL, publication INTEGER NOT NULL, PRIMARY KEY (sha256, profile, program)) WITHOUT ROWID;
"""
