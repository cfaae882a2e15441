"""What `crobots-step` is made of: it steps through a robot in a match, by questions to `crobots-debug`."""
