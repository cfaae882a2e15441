"""The parts of scripts/tournament and scripts/challenge."""
