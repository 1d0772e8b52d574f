# The faults of single functions, from what functions.awk prints.

BEGIN {
    FS = "\t"
    most = 40
}

{ place = $1 ":" $2 ": the function " $4 }

$1 ~ /^crates\// && $3 == "pub" && !$6 { print place " is public and has no ensures" }

$7 == "?" {
    print place " has no closing brace in its own column: run the formatter"
    next
}

$7 > most { print place " has " $7 " lines, more than " most }
