# shellcheck shell=sh
# For the tests of tools/lint: a repository without a fault, with what a careless reader would take for
# one, and what the lint has to say of it. Its files are written from here, since rt refuses a source
# that is in no listed crate.
lint=$PWD/tools/lint
top=${scratch:?}/top

# The library core is no interface crate, so its public functions may have a requires.
sample_core() {
    put "$top/crates/core/src/lib.rt" <<'END'
// pub fn in_a_comment() -> u8 {
ghost use mathlib.Core.Path.{_≡_};

struct Pair {
    left: u8,
}

impl Pair {
    pub fn left(self) -> u8
        ensures { λ r. ⌜ r ≡ self .left ⌝ }
    {
        self.left
    }

    fn none() {}
}

fn private() -> u8 {
    7
}

pub(crate) fn shared() -> u8 { // pub fn in_another() {
    private()
}

pub fn over_lines(
    first: u8, // requires {
    second: u8,
) -> u8
    // ensures {
    requires { ⌜ first ≡ second ⌝ }
    ensures { λ r. ⌜ id {A = ℕ}
        r ≡ id {
        A = ℕ} first ⌝ }
{
    first
}
END
    put "$top/crates/core/specs/Lib.antt" <<'END'
-- An axiom would be refused.
abbrev pub axiomless : Type 1
axiomless = Type 0
END
    # A line of 140 columns, and of more bytes, and a chain of six.
    put "$top/crates/core/proofs/left/Proof.antt" <<'END'
-- Computation decides it.
use needs
left c = c .before .before .before .before .before .before .args ≡≡≡≡≡≡≡≡≡≡≡≡≡≡≡≡≡≡≡≡≡≡≡≡≡≡≡≡≡≡≡≡≡≡≡≡≡≡≡≡≡≡≡≡≡≡≡≡≡≡≡≡≡≡≡≡≡≡≡≡≡≡≡≡≡≡≡≡≡≡≡≡≡≡≡
END
    put "$top/crates/core/must-fail/left_is_seven.edit" <<'END'
# The left half is said to be seven.
file: src/lib.rt
old:         self.left
new:         7
END
}

sample_face() {
    put "$top/crates/face/src/lib.rt" <<'END'
ghost use mathlib.Core.Path.{_≡_};

fn checked(x: u8) -> u8
    requires { ⌜ x ≡ 7 ⌝ }
{
    x
}

#[no_mangle]
pub extern "C" fn seven() -> u8
    ensures { λ r. ⌜ r ≡ 7 ⌝ }
{
    checked(7)
}
END
    put "$top/crates/face/must-fail/eight.edit" <<'END'
# The answer is eight.
file: src/lib.rt
old:     checked(7)
new:     8
END
}

# A program needs no must-fail edit.
sample_show() {
    put "$top/crates/show/src/main.rt" <<'END'
mod out;

fn main() {
    out::nothing();
}
END
    put "$top/crates/show/src/out.rt" <<'END'
pub fn nothing()
    ensures { λ _. ⌜ ⊤ ⌝ }
{}
END
}

# What rt ci writes of the sample's edits. The first is refused by a false goal. The second has no error: its proof was made without a
# file.
sample_logs() {
    put "$top/target/rt-ci.log" <<'END'
rt: core proved
rt: must-fail core/left_is_seven.edit: refused, as it must be: ./proofs/left/Answers.antt:23:13: error: `returns`: one has `left` (expected) and
rt: must-fail face/eight.edit: refused, as it must be: note: src/lib.rt:10:1: it is not proved that what the function ensures holds (`returns`)
5 passed, 0 failed
END
}

make_sample() {
    rm -rf "$top"
    put "$top/README.md" <<'END'
Interface crates: see below.

Interface crates: `face`.
END
    put "$top/crates.txt" <<'END'
# NAME: what it uses
core:
face: core # not `nothing:`
show : core
END
    sample_core
    sample_face
    sample_show
    sample_logs
}

# Runs the lint on the sample. Leaves what it writes in $scratch/out, and sets status.
run_lint() { # [--logs]
    "$lint" "$@" "$top" >"$scratch/out" 2>&1
    status=$?
}

# The lint has to end with status 0 and one line.
passes() { # NAME LINE [--logs]
    name=$1 line=$2
    shift 2
    run_lint "$@"
    if [ "$status" -ne 0 ]; then
        not_ok "$name" "the status is $status" <"$scratch/out"
    elif [ "$(cat "$scratch/out")" != "$line" ]; then
        not_ok "$name" "it does not write '$line'" <"$scratch/out"
    else
        ok "$name"
    fi
}

# The lint has to end with status 1 and one line: the place of TEXT in FILE (where TEXT is empty, its
# first line), and a message with WORDS.
finds() { # NAME FILE TEXT WORDS [--logs]
    name=$1 file=$2 text=$3 words=$4
    shift 4
    line=1
    [ -z "$text" ] || line=$(grep -nF "$text" "$top/$file" | sed -n '1s/:.*//p')
    run_lint "$@"
    found=$(cat "$scratch/out")
    if [ "$status" -ne 1 ]; then
        not_ok "$name" "the status is $status" <"$scratch/out"
        return
    fi
    case $found in
    *"
"*) not_ok "$name" 'more than one fault' <"$scratch/out" ;;
    "$file:$line: "*"$words"*) ok "$name" ;;
    *) not_ok "$name" "no fault '$words' at $file:$line" <"$scratch/out" ;;
    esac
}
