"""The script `tune`: what the numbers of a robot are worth, and which are better."""
