"""Films made by hand."""

from __future__ import annotations

# Robot 1 stands, scans, and shoots at robot 2, which drives east and is hit, restarts, and meets the wall and robot 1.
FILM = """\
cycle robot kind a b c d e
0 1 name a.r
0 2 name <b>.r
0 1 at 1000 5000 0 0 0
0 2 at 6000 5000 0 0 0
6 1 scan 0 10 500
9 1 shot 0 500 1000 5000
10 1 refused 0 500
45 1 at 1000 5000 0 0 0
45 2 at 6000 5000 0 50 0
150 1 burst 6000 5000
150 2 hurt 5 1 6000 5000
150 2 at 6350 5000 0 50 5
160 2 restart words refused 3
165 2 wall 2
165 2 at 6400 5000 90 0 7
180 1 collision 2 2
180 2 collision 2 1
180 1 at 1000 5000 0 0 2
180 2 at 6400 5000 90 0 9
300 1 end 2
300 2 end 9
"""
# The sources of both, and where they are in them: robot 2 has its first question in cycle 31, which uses one argument.
SOURCES = {"a.r": "main() {\n\twhile (1)\n    look();\n}\n\nlook() { scan(0, 10); }\n", "<b>.r": "main() { /* </script><b> */\n  drive(0, sqrt(2500));\n}\n"}
INSIDE = FILM.replace("0 2 at 6000 5000 0 0 0\n", "0 2 at 6000 5000 0 0 0\n0 1 line 2 main\n0 2 line 1 main\n").replace(
    "45 1 at 1000", "15 1 line 6 look\n15 1 asked scan 0 10 500 6\n45 2 line 2 main\n45 2 asked sqrt 2500  50 31\n45 1 at 1000")
BEGIN = "cycle robot kind a b c d e\n0 1 name a.r\n0 1 at 5000 5000 0 0 0\n"
END = "900 1 end 0\n"


def tabbed(film: str) -> str:
    """A film written with blanks."""
    return film.replace(" ", "\t")
