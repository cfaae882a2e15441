"""Seasons, divisions and the anchor."""

from __future__ import annotations

from .base import Base, League


class Turns(Base):
    """What changes from season to season."""

    def seasons(self) -> list[str]:
        it = League(self, "seasons", "-m2", robots=("a.r", "b.r", "c.r", "d.r"))
        wrong = []
        ran = it.ran("season", "end", "--day=2026-04-01")
        if ran.returncode != 2 or "12 matches are missing" not in ran.stderr:
            wrong.append(f"ended while matches are missing: {ran.stderr}")
        it.run("play", "-j1")
        first = it.table()
        it.run("season", "end", "--day=2026-04-01")
        if "ended on 2026-04-01" not in it.ran("play").stderr:
            wrong.append("a season that ended is played")
        it.run("add", "r50.r", "--day=2026-04-01")
        if (ran := it.ran("season", "begin", "two", "--day=2026-03-31")).returncode != 2:
            wrong.append(f"begun before the last one ended: {ran.stdout}")
        it.run("season", "begin", "two", "--divisions=2", "--day=2026-04-02")
        # pairs of two divisions, {b, c} and {d, a, r50}, since a robot that comes later is in the lowest: 1 + 3
        if it.missing() != 4 * 2:
            wrong.append(f"of the second season {it.missing()} matches are missing")
        it.run("play", "-j1")
        members = {row["robot"]: row["division"] for row in it.table()}
        if members != {"b": "1", "c": "1", "d": "2", "a": "2", "r50": "2"}:
            wrong.append(f"the divisions are {members}")
        if it.table("--season=1") != first:
            wrong.append("the first season's table changed")
        it.run("season", "end", "--day=2026-05-01")
        it.run("season", "begin", "three", "--move=1", "--day=2026-05-01")
        it.run("play", "-j1")
        members = {row["robot"]: row["division"] for row in it.table()}
        # of division 1 the second one goes down, of division 2 the first one, d, goes up: a loses all, r50 half
        if members["d"] != "1" or [*members.values()].count("1") != 2 or members["b"] == members["c"]:
            wrong.append(f"then the divisions are {members}")
        seeds = it.rows("SELECT count(DISTINCT seed), count(*) FROM seating")[0]
        return wrong + ([] if seeds[0] == seeds[1] else ["two seasons have a seed in common"])

    def seeds_of_seasons(self) -> list[str]:
        """Each season has the seed behind that of the one before; behind the last seed that there is comes 0."""
        it, wrong = League(self, "seeds", "-m2", f"-s{2**64 - 3}"), []
        for seed in (2**64 - 2, 2**64 - 1, 0, 1):
            it.run("season", "end")
            it.run("season", "begin", f"s{seed}")
            said = it.run("rules")
            wrong += [] if f"seed: {seed}\n" in said else [f"{said!r}, not {seed}"]
        return wrong

    def anchor(self) -> list[str]:
        it = League(self, "anchor", "-m4", "--anchor=b=1200", robots=("a.r", "r50.r", "b.r"))
        it.run("play", "-j1")
        rows = {row["robot"]: row for row in it.table()}
        wrong = (
            []
            if [rows["b"][name] for name in ("rating", "low", "high")] == ["1200"] * 3
            else [f"the anchor has {rows['b']}"]
        )
        free = {row["robot"]: int(row["rating"]) for row in (it.run("rules", "--anchor=none"), it.table())[1]}
        if any(abs(int(rows[robot]["rating"]) - 1200 - (free[robot] - free["b"])) > 1 for robot in free):
            wrong.append(f"{free} without the anchor")
        it.run("season", "end")
        it.run("season", "begin", "two", "--divisions=3", "--anchor=r50=50")
        # three divisions of one robot each: the anchor plays both others, and that isn't in any table
        if it.missing() != 2 * 4:
            wrong.append(f"with divisions {it.missing()} matches are missing")
        it.run("play", "-j1")
        if (counts := [(row["robot"], row["played"]) for row in it.table()]) != [("b", "0"), ("r50", "0"), ("a", "0")]:
            wrong.append(f"with divisions the table is {counts}")
        if [row["rating"] for row in it.table()][1] != "50" or int(it.table()[0]["rating"]) <= 50 <= int(
            it.table()[2]["rating"]
        ):
            wrong.append("divisions don't have ratings by the anchor")
        it.run("rules", "--anchor=b=0")
        if (ran := it.ran("withdraw", "b")).returncode != 2:
            wrong.append(f"the anchor may leave: {ran.stdout}")
        return wrong
