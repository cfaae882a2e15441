"""Parts of tests/step."""
