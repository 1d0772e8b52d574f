# The faults of the interface, which README.md names: crates, and single functions of others (`CRATE::FUNCTION`). Their callers are not
# proved, so no public function among them may ask anything of its caller.
#
# usage: awk -v listed='NAME NAME' -f interface.awk README.md FUNCTIONS
# where listed has the crates of crates.txt, and FUNCTIONS the public ones of what functions.awk prints.

BEGIN {
    FS = "\t"
    split(listed, names, " ")
    for (i in names) is_listed[names[i]] = 1
}

FILENAME == "README.md" {
    if (!/^Interface crates: `[a-z0-9_:]+`(, `[a-z0-9_:]+`)*\.$/) next
    found = FNR
    # every second piece stands between backticks
    count = split($0, piece, "`")
    for (i = 2; i < count; i += 2) {
        interface[piece[i]] = 1
        if (index(piece[i], "::")) missing[piece[i]] = 1
        else if (!(piece[i] in is_listed))
            print "README.md:" FNR ": the interface crate " piece[i] " is not in crates.txt"
    }
    next
}

{
    split($1, part, "/")
    function_name = part[2] "::" $4
    delete missing[function_name]
}

$5 > 0 && (part[2] in interface || function_name in interface) {
    print $1 ":" $2 ": the function " $4 " of the interface is public and has a requires"
}

END {
    if (!found) print "README.md:1: no line of the form Interface crates: `NAME`, `NAME`."
    for (name in missing) print "README.md:" found ": the interface function " name " is no public function of that crate"
}
