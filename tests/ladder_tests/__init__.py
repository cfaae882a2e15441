"""Parts of tests/ladder."""
