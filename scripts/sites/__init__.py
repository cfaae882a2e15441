"""Writes the site of a league or of a tournament: static pages, which need no script, no network and no library."""
