"""The parts of tests/leagues, one module a subject."""
