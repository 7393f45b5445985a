#!/bin/sh
# Builds the archive that a daemon links, compiles the C examples over it and runs them: lengths and questions print what they are answered, the depot's
# lines for each run under samples/ are compared with the file beside it, and burst takes each server's events of the run in bursts.
set -eu
cd "$(dirname "$0")/.."
sh scripts/dist.sh
mkdir -p target/examples
for example in lengths questions depot burst; do
    "${CC:-cc}" -std=c11 -Wall -Wextra -O2 -Idist -Iinclude "examples/c/$example.c" dist/libguzbytor.a -o "target/examples/$example"
done
target/examples/lengths
target/examples/questions
for run in samples/*.bin; do
    name=$(basename "$run" .bin)
    target/examples/depot "$run" >"target/examples/$name.txt"
    diff "samples/$name.txt" "target/examples/$name.txt"
    echo "$run: same"
    target/examples/burst "$run"
done
