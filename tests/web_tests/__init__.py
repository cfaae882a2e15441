"""Parts of tests/web."""
