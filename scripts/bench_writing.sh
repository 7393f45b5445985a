#!/bin/sh
# How long outgoing records take to write, before and after a change (bench/README.md, 'Outgoing records'): bench/writing.c with the archive of
# REV and with the working tree's, in turns; the best of each figure counts. Prints a Markdown table; ends with 1 where the two put out other bytes.
# usage: bench_writing.sh REV [DIRECTORY]
#   REV: of the working tree's layout, for both programs write states by bench/layout.h; today's toolchain must prove it too
#   DIRECTORY: a clone at REV with its archive in dist/ (scripts/dist.sh); without it one is made, built and removed.
set -eu
turns=7

fail() {
    echo "$*" >&2
    exit 1
}
[ $# -eq 1 ] || [ $# -eq 2 ] || fail "usage: bench_writing.sh REV [DIRECTORY]"
before=
if [ $# -eq 2 ]; then
    before=$(cd "$2" && pwd)
fi
cd "$(dirname "$0")/.."
commit=$(git rev-parse --verify --quiet "$1^{commit}") || fail "no such revision: $1"
layout() { sed -n 's/.*IMAGE_LAYOUT = \([0-9]*\).*/\1/p'; }
[ "$(git show "$commit:include/guzbytor_layout.h" | layout)" = "$(layout <include/guzbytor_layout.h)" ] || fail "$1 has another layout of the state"
if [ -n "$before" ]; then
    [ "$(git -C "$before" rev-parse HEAD)" = "$commit" ] || fail "$2 is not at $1"
    git -C "$before" diff --quiet HEAD || fail "$2 has changes that are not in $1"
    [ -f "$before/dist/libguzbytor.a" ] || fail "$2 has no archive: sh scripts/dist.sh makes it there"
fi

sh scripts/dist.sh >&2
if [ -z "$before" ]; then
    temporary=$(mktemp -d)
    trap 'rm -rf "$temporary"' EXIT
    trap 'exit 1' HUP INT TERM
    before=$temporary/before
    git clone -q --no-checkout . "$before"
    git -C "$before" checkout -q --detach "$commit"
    # Of crates that are the same in both rt begins with what it kept here.
    sh "$before/scripts/dist.sh" >&2
fi

out=target/bench/writing
rm -rf "$out"
mkdir -p "$out"
# Each with the headers of its own archive.
compile() {
    "${CC:-cc}" -std=c11 -D_POSIX_C_SOURCE=199309L -Wall -Wextra -O2 -I"$1/dist" -I"$1/include" bench/writing.c bench/plan.c bench/timed_step.c \
        bench/trial.c bench/full_state.c "$1/dist/libguzbytor.a" -o "$out/$2"
}
compile "$before" before
compile . after

# What must be the same in both: the cases, and the hash of the records.
put_out() {
    awk '{ print $1, $2, $3, $4, $5, $10 }' "$out/$1.txt" >"$out/$1.hashes"
}
turn=0
while [ "$turn" -lt "$turns" ]; do
    turn=$((turn + 1))
    for program in before after; do
        "$out/$program" >>"$out/$program.txt"
        put_out "$program"
    done
    cmp -s "$out/before.hashes" "$out/after.hashes" || {
        diff "$out/before.hashes" "$out/after.hashes" >&2 || true
        fail "the two programs put out other bytes"
    }
done

awk '
    function least(which, figure, now) {
        if (!((which, row, figure) in best) || now < best[which, row, figure]) {
            best[which, row, figure] = now
        }
    }
    function part(which) { return best[which, row, "whole"] - best[which, row, "empty"] }
    function grouped(x, text) {
        text = sprintf("%.0f", x)
        while (text ~ /[0-9][0-9][0-9][0-9]/) {
            sub(/[0-9][0-9][0-9]($|,)/, ",&", text)
        }
        return text
    }
    FNR == 1 { program++ }
    {
        row = $1 ", " $2 " | " $3 " | " grouped($4) " | " grouped($5)
        if (!(row in seen)) {
            seen[row] = 1
            rows[++count] = row
        }
        least(program, "whole", $7)
        least(program, "empty", $8)
        least("both", "copy", $9)
    }
    END {
        print "| n, q | Payload | Records | Bytes | ns before | ns after | Ratio | memcpy ns | after to memcpy |"
        print "|---|---|---|---|---|---|---|---|---|"
        for (i = 1; i <= count; i++) {
            row = rows[i]
            before = part(1)
            after = part(2)
            copy = best["both", row, "copy"]
            printf "| %s | %s | %s | %.2f | %s | %.1f |\n", row, grouped(before), grouped(after), after / before, grouped(copy), after / copy
        }
    }' "$out/before.txt" "$out/after.txt"
