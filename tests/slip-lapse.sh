#!/usr/bin/env bash
# A program that lets a slip lapse must not build, nor one that uses a slip that it has carried.
# Small crates over the engine, made in a temporary folder, do just that. The prover has to refuse the first, since
# a slip that was opened does not meet what letting one go requires, and the compiler the second, since the slip was moved. A third crate,
# which withdraws its slip, has to be proved, so that the refusals cannot come from how the crates are set up.
# Prints `ok` and ends with status 0 if all of this holds, and ends with status 1 otherwise.
set -u
here="$(cd "$(dirname "${BASH_SOURCE[0]}")/.." && pwd)"
room="$(mktemp -d)"
trap 'rm -rf "$room"' EXIT

# The engine and the crates that it builds on, with what was proved of them before in their folders out/.
layers="refusal stack line scale meter book reader flowcheck steps machine engine"
mkdir "$room/crates"
for crate in $layers; do
    cp -r "$here/crates/$crate" "$room/crates/$crate"
    grep "^$crate:" "$here/crates.txt" >>"$room/crates.txt"
done

# library NAME: makes a crate of this name with the function on standard input.
library() {
    mkdir -p "$room/crates/$1/src"
    {
        echo "#![tactic(auto)]"
        echo
        echo "use engine::engine::Engine;"
        echo "use engine::slip::{Refused, Slip};"
        echo "use meter::digit::Digit;"
        echo "use scale::ladder::Ladder;"
        echo
        cat
    } >"$room/crates/$1/src/lib.rt"
    echo "$1: $layers" >>"$room/crates.txt"
}

prove() {
    (cd "$room/crates/$1" && rt check) >"$room/$1.log" 2>&1
}

failed=0
fail() {
    echo "$1: $2"
    cat "$room/$1.log"
    failed=1
}

# refused NAME WORD: the crate is refused, and WORD is in the reason.
refused() {
    if prove "$1"; then
        fail "$1" "was not refused"
    elif ! grep -q -- "$2" "$room/$1.log"; then
        fail "$1" "was refused for another reason"
    fi
}

library lapse <<'END'
pub fn lapse(engine: &mut Engine<Ladder, Digit>) {
    if let Ok(slip) = engine.open_slip(0, 0, 1) {
        let _ = slip.numbers();
    }
}
END

library again <<'END'
pub fn again(engine: &mut Engine<Ladder, Digit>, slip: Slip) -> Result<(), Refused> {
    engine.carry(slip)?;
    engine.carry(slip)
}
END

library once <<'END'
pub fn once(engine: &mut Engine<Ladder, Digit>, slip: Slip) -> Result<(), Refused> {
    engine.withdraw(slip)
}
END

refused lapse "drop-slip-requires"
refused again "borrow-e0382"
prove once || fail once "was refused"
if [ "$failed" = 0 ]; then
    echo ok
fi
exit "$failed"
