"""What the scripts share: what ends them and what they then say, standard files, signals, words, the programs that they run."""
