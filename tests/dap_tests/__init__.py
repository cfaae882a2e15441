"""What `tests/dap` is made of: a client of the debug adapter, and random matches."""
