# Says why what rt ci wrote of a must-fail edit shows no refused fact, and nothing where it shows one. rt takes an edit as refused
# wherever the prover ends with "not proved", so also where a text can't be read, or a proof names what the edited code no longer has.
# Code that is right but of another shape is refused so too: such an edit shows nothing.
#
# usage: awk -v edit=CRATE/LABEL.edit -f refusal.awk WHAT-RT-WROTE
#
# rt writes the first error that is of more than a name which a proof file has and the edited code has not. It decides, since others may
# rest on it. A function's goal that has no answer, or one under another name, has no error but a note, and so has the fact that a type's
# ghost field wants of its fields.

# The name of what is checked stands before the message of an error, but not where a text can't be read.
function why_of_error(line,    place, message) {
    place = line
    sub(/: error.*/, "", place)
    sub(/^\.\//, "", place)
    message = substr(line, index(line, ": error") + 7)
    if (message ~ /`[^`]*` that can be named from here/) return "a name is gone that the proof uses"
    if (place !~ /^proofs\//) return "the edited statement or code is itself wrong (" place ")"
    if (!sub(/^: `[^`]*`: /, "", message)) return "the proof can't be read"
    if (message ~ /^`[^`]*` is not in scope/) return "a name isn't in scope"
    if (message ~ /^(record `|`[^`]*` is not a field of|`\.[^`]*` projects from)/)
        return "a field is gone that the proof uses"
    if (message ~ /^expected type `goal\.[^`]*`, but this has type `goal\./) return "the goals of the proof are others"
    return ""
}

function why(said) {
    if (said !~ /^refused, as it must be/) return "the edit is not refused (" substr(said, 1, 60) ")"
    if (said ~ /^refused, as it must be \(only because a proof file names/) return "a name is gone that the proof uses"
    if (said ~ /^refused, as it must be \(only by a limit/) return "only a limit of the prover refuses it"
    if (!sub(/^refused, as it must be: /, "", said)) return "rt gives no reason"
    if (said ~ /^note: .*: it is not proved that /) return ""
    if (said ~ /^note: [^ ]*: `search` found no proof \(`invariant_of-[^`]*`\)/) return ""
    if (said ~ /^[^ ]*:[0-9]+:[0-9]+: error/) return why_of_error(said)
    return "rt gives no error"
}

BEGIN { begins = "rt: must-fail " edit ": " }

index($0, begins) == 1 {
    found = 1
    print why(substr($0, length(begins) + 1))
}

END { if (!found) print "rt says nothing of this edit" }
