"""What `tests/lsp` is made of: a client of the language server, and sources with edits."""
