# Prints a line for each function of a source of Rattle or Rust, with tabs between the parts:
#
#     FILE LINE pub|own NAME REQUIRES ENSURES LENGTH
#
# REQUIRES and ENSURES count its clauses. LENGTH counts its lines from the one with its name through
# its closing brace, without the contract's, and is ? where no such brace is found.
#
# This reads the layout that rt fmt (and rustfmt) writes: each clause begins a line; a body opens at
# the end of the signature or, after clauses, with a brace alone on its line; a function's closing
# brace has the indentation of its first line.

BEGIN { head = "^ *(pub(\\([a-z]+\\))? )?((const|unsafe|extern \"C\") )*fn " }

function open_function() {
    file = FILENAME
    start = FNR
    kind = line ~ /^ *pub / ? "pub" : "own"
    name = line
    sub(head, "", name)
    sub(/[^A-Za-z0-9_].*/, "", name)
    match(line, /^ */)
    margin = substr(line, 1, RLENGTH)
    lines = requires = ensures = 0
    part = "signature"
}

function close_function(length_found) {
    print file "\t" start "\t" kind "\t" name "\t" requires "\t" ensures "\t" length_found
    part = ""
}

FNR == 1 && part != "" { close_function("?") }

{
    line = $0
    sub(/[ \t]*\/\/.*/, "", line)
}

part == "" && line ~ head { open_function() }

part == "signature" && line ~ /^ *(ghost|requires|ensures)[*]?( [A-Za-z0-9_]+)? [{]/ { part = "contract" }

# A clause can hold braces, also at the end of a line.
part == "contract" && line != margin "{" && line != margin "{}" {
    if (line ~ /^ *requires[*]?( [A-Za-z0-9_]+)? [{]/) requires++
    if (line ~ /^ *ensures[*]?( [A-Za-z0-9_]+)? [{]/) ensures++
    next
}

part != "" { lines++ }

part == "body" && line == margin "}" { close_function(lines) }

part ~ /^(signature|contract)$/ {
    if (line ~ /[{]$/) part = "body"
    else if (line ~ /[};]$/) close_function(lines)
}

END { if (part != "") close_function("?") }
