"""The open ladder: a web server over a league, with which authors hand in robots, and a player that keeps its table."""
