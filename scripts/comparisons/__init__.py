"""Compares two versions of a robot in one match."""
