"""Parts of tests/replay."""
