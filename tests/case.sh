# shellcheck shell=sh
# For the test programs, which source it: the lines of their cases, and a folder for what they make.
set -u

scratch=$(mktemp -d) || exit 2
trap 'rm -rf "$scratch"' EXIT
trap 'exit 130' HUP INT TERM

broken=0

ok() { # NAME
    printf 'ok %s\n' "$1"
}

# Shows standard input below, indented so that none of it counts as a case. At the end of a pipe it would set no status.
not_ok() { # NAME WHY
    printf 'not ok %s: %s\n' "$1" "$2"
    sed 's/^/    /'
    broken=1
}

has() { command -v "$1" >/dev/null 2>&1; }

# A step whose messages matter only where it fails.
step() { # NAME COMMAND...
    name=$1
    shift
    if "$@" >"$scratch/said" 2>&1; then ok "$name"; else not_ok "$name" 'the command failed' <"$scratch/said"; false; fi
}

# Writes standard input to a file, whose folder need not be there yet.
put() { # FILE
    mkdir -p "$(dirname "$1")"
    cat >"$1"
}

# The last command of a test program.
end_cases() { exit "$broken"; }
