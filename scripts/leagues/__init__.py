"""The parts of scripts/league."""
