# The faults of files that are too long: sources, and scripts of any name.

BEGIN { most = 300 }

FNR == 1 { source = /^#!/ || FILENAME ~ /\.(rt|antt|rs|c|h|sh|awk)$/ }

source && FNR == most + 1 { print FILENAME ":" FNR ": the file has more than " most " lines" }
