#!/bin/sh
# Instructions of single steps, counted by valgrind's callgrind inside guzbytor_step (bench/README.md): the costly events at full states, and steps of
# runs in which all servers stay in touch. Needs dist/ (scripts/dist.sh). A line for each step: its name, with how many entries of each creator are
# white or, in a run, how many each server has made; its instructions; and their ratio to those of the line before.
set -eu
cd "$(dirname "$0")/.."
out=target/bench/count
rm -rf "$out"
mkdir -p "$out/trials"
compile() {
    "${CC:-cc}" -std=c11 -D_POSIX_C_SOURCE=199309L -Wall -Wextra -O2 -Idist -Iinclude -Iexamples/c "$@" dist/libguzbytor.a
}
compile bench/one_step.c -o "$out/one_step"
compile bench/costly_trials.c bench/trials.c bench/costly.c bench/hostile.c bench/plan.c bench/trial.c bench/full_state.c -o "$out/costly_trials"
compile bench/in_touch.c bench/trials.c bench/timed_step.c bench/trial.c bench/full_state.c -o "$out/in_touch"
"$out/costly_trials" "$out/trials" >"$out/names"
"$out/in_touch" "$out/trials" >>"$out/names"
before=
while read -r name; do
    count=$(valgrind --tool=callgrind --toggle-collect=guzbytor_step --callgrind-out-file=/dev/null "$out/one_step" "$out/trials/$name" 2>&1 |
        sed -n 's/.*Collected : \([0-9]*\).*/\1/p')
    [ -n "$count" ] || { echo "nothing is counted: $name" >&2; exit 1; }
    echo "$name $count ${before:-$count}" | awk '{ b = $NF; c = $(NF - 1); NF -= 2; printf "%-36s %9d %6.3f\n", $0, c, c / b }'
    before=$count
done <"$out/names"
