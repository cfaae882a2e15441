"""Results of matches: how each ended, what robots did in many, and where that puts them. Tournaments, leagues and sites go by it."""
