# The faults of what would be assumed and not proved.

FILENAME ~ /\.antt$/ && /^[ \t]*axiom([ \t]|$)/ {
    print FILENAME ":" FNR ": an axiom: nothing proves it"
}

FILENAME ~ /\.rt$/ && /^[ \t]*(unsafe )?extern( "[^"]*")? [{]/ {
    print FILENAME ":" FNR ": a block of C functions: nothing proves their contracts"
}
