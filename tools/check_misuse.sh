#!/usr/bin/env bash
# Programs that misuse a pass must be refused by the compiler, and one that uses it rightly must be proved. Each
# tools/misuse/NAME.ERROR.txt has to fail with error[ERROR] before anything reaches the prover.
#
#     (cd crates/gate && rt check) && tools/check_misuse.sh
set -u
top=$(cd "$(dirname "$0")/.." && pwd -P)
work=$(mktemp -d)
libraries=(--extern "gate=$top/crates/gate/out/rlib/gate.rlib")
for library in x86 automata gate; do
    libraries+=(-L "dependency=$top/crates/$library/out/rlib")
done
trap 'rm -rf "$work"' EXIT
bad=0
for file in "$top"/tools/misuse/*.txt; do
    name=$(basename "$file" .txt)
    crate=${name%%.*}
    want=${name#*.}
    mkdir -p "$work/$crate/src"
    cp "$file" "$work/$crate/src/lib.rt"
    (cd "$work/$crate" && rt check "$crate" "${libraries[@]}") >"$work/log" 2>&1
    status=$?
    if [ "$name" = good ]; then
        if [ $status -eq 0 ] && grep -q '^logic=proved' "$work/log"; then
            echo "misuse: good: proved, as it must be"
        else
            echo "misuse: good: NOT PROVED"; head -n 8 "$work/log"; bad=1
        fi
    elif [ $status -eq 1 ] && grep -q "error\[$want\]" "$work/log" && ! grep -q '^logic=' "$work/log"; then
        echo "misuse: $crate: refused with $want, as it must be"
    else
        echo "misuse: $crate: NOT REFUSED AS IT MUST BE ($status)"; head -n 8 "$work/log"; bad=1
    fi
done
exit $bad
