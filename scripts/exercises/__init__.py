"""What `crobots-exercise` is made of: it prints exercises with numbers of a reader's own, and marks what is handed in."""
