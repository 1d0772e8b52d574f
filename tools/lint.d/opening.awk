# The faults of proofs that don't say their idea.

FNR == 1 && !/^-- ./ { print FILENAME ":1: the proof opens with no comment that says its idea" }
