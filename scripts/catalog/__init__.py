"""What this repository consists of: its commands, its crates, and the options of each command as its manual page has them."""
