#!/bin/sh
# Runs the office (examples/c/office) by the seeds 1 to COUNT, with every number of depots and many quotas: each run must end with all depots in one
# primary component with equal green lists, which have every request that was answered 0, and the register that they make. Runs that `replay` can take
# are recorded, and its lines compared with the office's own. Then a run that fills the register, one that stops in a meeting, and a register as a
# table and as a sheet (examples/c/sheet.c): the last two must be as under docs/.
# usage: office.sh [COUNT]       (default 1000)
set -eu
cd "$(dirname "$0")/.."
count=${1:-1000}
out=target/office
mkdir -p "$out"
(cd crates/replay && rt run <stdin | cmp - stdout)
sh scripts/dist.sh
compile() {
    "${CC:-cc}" -std=c11 -D_POSIX_C_SOURCE=200809L -Wall -Wextra -O2 -Idist -Iinclude -Iexamples/c -Ibench "$@"
}
compile examples/c/office/*.c bench/plain_register.c dist/libguzbytor.a -o "$out/office"
compile examples/c/sheet.c examples/c/drawing.c dist/libguzbytor.a -o "$out/sheet"

# Runs a seed, past small quotas; with a fourth word it is recorded too.
run() {
    more=$(($3 > 10 ? 40 : 4 * $3))
    set -- "$1" -n "$2" -q "$3" -m $((20 + $1 % 10 * 30)) -k $more -u -d "$out/depots" ${4:+-r "$out/run.bin" -l "$out/lines.txt"}
    "$out/office" "$@" >"$out/said.txt" && cat "$out/said.txt" >>"$out/all.txt" && return
    cat "$out/said.txt"
    echo "  by: $out/office $*"
    return 1
}

equal=0 recorded=0 same=0 seed=0
: >"$out/all.txt"
while [ "$seed" -lt "$count" ]; do
    seed=$((seed + 1))
    depots=$((2 + seed % 7))
    case $((seed / 7 % 4)) in
    0) quota=$((1 + seed % 4)) ;;
    1) quota=$((1 + seed * 5 % 16)) ;;
    2) quota=$((1 + seed * 29 % 256)) ;;
    *) quota=256 ;;
    esac
    if [ "$depots" -gt 4 ] || [ "$quota" -gt 16 ]; then
        if run "$seed" "$depots" "$quota"; then equal=$((equal + 1)); fi
        continue
    fi
    recorded=$((recorded + 1))
    if run "$seed" "$depots" "$quota" recorded; then equal=$((equal + 1)); fi
    crates/replay/out/replay <"$out/run.bin" >"$out/replay.txt"
    if cmp "$out/lines.txt" "$out/replay.txt"; then same=$((same + 1)); fi
done
awk '{ events += $3; crashes += $5; green += $7; white += $9; refused += $11; pegs += $13; past += $15; full += $20 }
    END { print events " events, " crashes " crashes, " green " green, " white " of these white, " refused " refused by the register, " pegs " pegs"
          print past " depots went past their quota, and " full " requests were answered 3" }' "$out/all.txt"
echo "$equal of $count seeds ended equal; replay prints the same lines for $same of $recorded recorded"
[ "$equal" -eq "$count" ] && [ "$same" -eq "$recorded" ] || exit 1

# Six depots with 256 places each set 4,096 pegs, all that a register has room for. The table has them all, and so has the widest rectangle.
"$out/office" 6 -n 6 -q 256 -m 0 -k 683 -f -u -d "$out/depots" -p "$out/full.img" | tee "$out/full.txt"
grep -q ' 4096 pegs, 6 depots past the quota, ' "$out/full.txt"
"$out/sheet" "$out/full.img" >"$out/full_table.txt"
[ "$(grep -c '^"P' "$out/full_table.txt")" -eq 4096 ]
"$out/sheet" -r -2147483648 -2147483648 2147483647 2147483647 "$out/full.img" | cmp "$out/full_table.txt"

# Two depots take all requests of their lives; a further one is answered 3.
if [ "$count" -ge 1000 ]; then
    "$out/office" 1 -n 2 -q 256 -m 0 -k 65536 -u -d "$out/depots" | tee "$out/lives.txt"
    grep -q ' 131070 green, ' "$out/lives.txt"
fi

# A run that stops, and how far its meeting is, as docs/STORY.md has it.
"$out/office" 387 -n 3 -q 16 -m 50 -u -d "$out/depots" -w | while IFS= read -r line; do
    grep -qF "$line" docs/STORY.md || { echo "not in docs/STORY.md: $line" && exit 1; }
done

# A run's register: the table, the sheet, and a part of it with the peg that is nearest to a point (docs/STORY.md).
"$out/office" 20 -n 3 -q 16 -u -d "$out/depots" -p "$out/pegs.img" >/dev/null
"$out/sheet" "$out/pegs.img" >"$out/pegs.txt"
"$out/sheet" -s "$out/pegs.img" >"$out/sheet.svg"
cmp docs/sheet.svg "$out/sheet.svg"
"$out/sheet" -s -r -100000 -125000 125000 0 -n 60000 -60000 "$out/pegs.img" >"$out/part.svg"
cmp docs/part.svg "$out/part.svg"

# A daemon refuses an image of another number of depots, of another depot, and one that is damaged.
refuses() {
    if "$out/office" -t -n "$1" -q 4 -d "$out/depots" >/dev/null; then
        echo "$2 is taken"
        exit 1
    fi
}
"$out/office" 1 -n 3 -q 4 -d "$out/depots" >/dev/null
"$out/office" -t -n 3 -q 4 -d "$out/depots"
refuses 2 "an image of another number of depots"
cp "$out/depots/depot0.img" "$out/depots/depot1.img"
cp "$out/depots/depot0.history" "$out/depots/depot1.history"
refuses 3 "an image of another depot"
"$out/office" 1 -n 3 -q 4 -d "$out/depots" >/dev/null
printf 'x' | dd of="$out/depots/depot1.img" bs=1 seek=100 conv=notrunc 2>/dev/null
refuses 3 "a damaged image"
"$out/office" 1 -n 3 -q 4 -d "$out/depots" >/dev/null
printf '' >"$out/depots/depot1.history"
refuses 3 "an image without its history"
