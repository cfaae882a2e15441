"""Robots that join, change and leave, and what is refused."""

from __future__ import annotations

from .base import IDLE, SHOOTER, Base, League, write


# Words of which a command can't be about a league with robots a and b, where b has left; the status, and what is said.
REFUSED: tuple[tuple[tuple[str, ...], int, str], ...] = (
    (("add", "a.r"), 2, "there is a robot a already"),
    (("add", "b.r"), 2, "there is a robot b already"),
    (("add", "c.r", "d.r", "gone.r"), 3, "cannot read gone.r"),
    (("add", "c.r", "bad.r"), 1, "bad.r:2: reserved word"),
    (("add", "c.r", "--id=x y"), 2, "'x y' is no id"),
    (("add", "c.r", "--id=" + "x" * 41), 2, "is no id"),
    (("add", "c.r", "--id=.x"), 2, "is no id"),
    (("add", "c.r", "d.r", "--id=x"), 2, "--id is for one robot"),
    (("add", "c.r", "--author=a\nb"), 2, "an author's name"),
    (("add", "c.r", "--author=\udcff"), 2, "an author's name"),
    (("add", "c.r", "--day=2026-03-04"), 2, "the last entry is of 2026-03-05"),
    (("add", "c.r", "--day=2026-02-30"), 2, "is no day"),
    (("change", "x", "c.r"), 2, "there is no robot x"),
    (("change", "a", "a.r"), 2, "has these bytes already"),
    (("change", "a", "bad.r"), 1, "bad.r:2: reserved word"),
    (("withdraw", "a", "x"), 2, "there is no robot x"),
    (("withdraw", "b"), 2, "has left already"),
    (("rules", "--anchor=x=5"), 2, "which doesn't play"),
    (("rules", "--mode=gauntlet:b"), 2, "which doesn't play"),
    (("rules", "--mode=threes", "--until=sure"), 2, "only pairs"),
    (("rules", "--mode=ladder", "--sample=3"), 2, "a sample is one of"),
    (("rules", "--mode=x"), 2, "is none of"),
    (("rules", "--mode=sizes:0,0,0"), 2, "one at least has a weight"),
    (("rules", "-m0"), 2, "is no number"),
    (("init",), 3, "is a league already"),
    (("season", "begin", "two"), 2, "goes on"),
    (("season", "begin"), 2, "takes a season's name"),
    (("table", "--season=x"), 2, "there is no season x"),
    (("play", "--crobots=/bin/true"), 2, "is not the program of this season"),
    (("play", "--crobots=gone"), 2, "is not there"),
)


class Entering(Base):
    """Who plays."""

    def refuses(self) -> list[str]:
        """What can't be, with one line and a status, and nothing of it is kept."""
        league = League(self, "refuses", robots=("a.r", "b.r"))
        league.run("withdraw", "b", "--day=2026-03-05")
        before = league.rows("SELECT * FROM entry"), league.rows("SELECT * FROM season")
        wrong = []
        for words, status, why in REFUSED:
            ran = league.ran(*words)
            if ran.returncode != status or why not in ran.stderr or ran.stderr.count("\n") != 1:
                wrong.append(f"{words}: status {ran.returncode}, {ran.stderr!r}")
        if (league.rows("SELECT * FROM entry"), league.rows("SELECT * FROM season")) != before:
            wrong.append("something of it was kept")
        return wrong

    def refuses_without_a_league(self) -> list[str]:
        """Folders and files that are no league, and commands that aren't there."""
        write(self.at("text"), "no database")
        cases = ((("status", "gone"), 3), (("frob", self.at("text")), 2), ((), 2), (("verify", "text"), 3), (("verify", "gone"), 3))
        wrong = []
        for words, status in cases:
            if (ran := self.ran(*words)).returncode != status or ran.stderr.count("\n") != 1:
                wrong.append(f"{words}: status {ran.returncode}, {ran.stderr!r}")
        return wrong

    def keeps_sources_and_authors(self) -> list[str]:
        it = League(self, "sources")
        names = ['Ann "<script>" O\'Neil', "\u00c9mile \u4e2d"]
        for name, robot in zip(names, ("a.r", "b.r")):
            it.run("add", robot, "--author", name, "--day=2026-03-02")
        it.run("change", "a", "d.r", "--day=2026-03-03")
        sources = [
            source.decode() for source, in it.rows("SELECT bytes FROM entry JOIN source USING (sha256) ORDER BY number")
        ]
        wrong = [] if sources == [SHOOTER, IDLE, IDLE + "\n"] else [f"the sources are {sources}"]
        if [author for author, in it.rows("SELECT author FROM robot ORDER BY id")] != names:
            wrong.append("the authors are others")
        if it.rows("SELECT day, what, robot FROM entry ORDER BY number")[1:] != [
            ("2026-03-02", "add", "b"),
            ("2026-03-03", "change", "a"),
        ]:
            wrong.append("the entries are others")
        return wrong

    def copies_keep_their_matches(self) -> list[str]:
        """Robots with the same bytes have matches of their own, which stay when another comes, whatever its id."""
        it = League(self, "copies", "-m10", robots=("r50.r",))
        for robot in ("m", "n"):
            it.run("add", "r50.r", f"--id={robot}")
        it.run("play", "-j1")
        before = {row["robot"]: (row["won"], row["tied"], row["lost"]) for row in it.table()}
        it.run("add", "r50.r", "--id=k")
        shown = {row["robot"]: (row["won"], row["tied"], row["lost"]) for row in it.table()}
        seeds = it.rows("SELECT count(DISTINCT seed), count(*) FROM seating")[0]
        return [] if shown == before | {"k": ("0", "0", "0")} and seeds == (6, 6) else [f"{before}, {shown}, {seeds}"]
