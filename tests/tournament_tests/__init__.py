"""The parts of tests/tournaments, one module a subject."""
