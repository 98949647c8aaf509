#!/bin/sh
# The size of each crate: lines of code, of definitions (specs) and of proofs, with their comments and blank lines, and the number of must-fail edits.
set -eu
cd "$(dirname "$0")/.."
lines() { find "crates/$1" -type f -exec cat {} + 2>/dev/null | wc -l; }
{
    echo crate code specs proofs edits
    for crate in $(sed -n 's/^\([a-z_]*\)[ a-z]*:.*/\1/p' crates.txt); do
        echo "$crate" "$(lines "$crate/src")" "$(lines "$crate/specs")" "$(lines "$crate/proofs")" "$(find "crates/$crate" -name '*.edit' | wc -l)"
    done
} | awk '{ printf "%-12s %6s %6s %7s %6s\n", $1, $2, $3, $4, $5; for (i = 2; i <= 5; i++) sum[i] += $i }
    END { printf "%-12s %6d %6d %7d %6d\n", "all", sum[2], sum[3], sum[4], sum[5] }'
