"""Parts of tests/sites."""
