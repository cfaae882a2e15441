"""What `crobots-lsp` and `crobots-dap` are made of: servers of two protocols of editors, on standard input and output."""
