# What makes a source of the crates hard to read: a line of more than 140 columns, and one with a chain of more than six .before.

BEGIN {
    widest = 140
    longest = 6
}

function fault(message) { print FILENAME ":" FNR ": " message }

# A character of several bytes is one column: its further bytes are left out.
length($0) > widest {
    line = $0
    gsub(/[\200-\277]/, "", line)
    if (length(line) > widest) fault("the line has " length(line) " columns, more than " widest)
}

/\.before/ {
    line = $0
    most = 0
    while (match(line, /\.before( \.before)*/)) {
        chain = (RLENGTH + 1) / length(".before ")
        if (chain > most) most = chain
        line = substr(line, RSTART + RLENGTH)
    }
    if (most > longest) fault("a chain of " most " .before, more than " longest)
}
