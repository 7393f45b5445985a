#!/bin/sh
# Builds the archive and times it (bench/README.md): the state check against one pass over the same bytes and against the same check in plain C, steps
# against memcpy, steps with few and with many white entries, bursts against steps over runs that it records first, and the register, alone, asked and
# beside the state, against plain C. First it tells how much stack each call takes.
set -eu
cd "$(dirname "$0")/.."
sh scripts/dist.sh
mkdir -p target/bench
compile() {
    "${CC:-cc}" -std=c11 -D_POSIX_C_SOURCE=199309L -Wall -Wextra -O2 -Idist -Iinclude -Iexamples/c "$@"
}
compile -O3 -c bench/one_pass.c -o target/bench/one_pass.o
compile bench/stack.c bench/costly.c bench/plan.c bench/trial.c bench/full_state.c bench/made_pegs.c bench/plain_register.c dist/libguzbytor.a \
    -o target/bench/stack
compile bench/pass.c bench/full_state.c target/bench/one_pass.o dist/libguzbytor.a -o target/bench/pass
compile bench/state_check.c bench/full_state.c bench/plain_check.c dist/libguzbytor.a -o target/bench/state_check
compile bench/step.c bench/costly.c bench/plan.c bench/timed_step.c bench/trial.c bench/full_state.c dist/libguzbytor.a -o target/bench/step
compile bench/white.c bench/costly.c bench/plan.c bench/timed_step.c bench/trial.c bench/full_state.c bench/plain_check.c dist/libguzbytor.a \
    -o target/bench/white
compile bench/in_touch.c bench/trials.c bench/timed_step.c bench/trial.c bench/full_state.c dist/libguzbytor.a -o target/bench/in_touch
compile bench/record.c dist/libguzbytor.a -o target/bench/record
compile bench/burst.c target/bench/one_pass.o dist/libguzbytor.a -o target/bench/burst
compile bench/register.c bench/made_pegs.c bench/plain_register.c target/bench/one_pass.o dist/libguzbytor.a -o target/bench/register
compile bench/queries.c bench/plain_queries.c bench/made_pegs.c bench/plain_register.c dist/libguzbytor.a -o target/bench/queries
compile bench/register_step.c bench/trial.c bench/full_state.c bench/made_pegs.c bench/plain_register.c dist/libguzbytor.a \
    -o target/bench/register_step
target/bench/stack
target/bench/pass
target/bench/state_check
target/bench/step
target/bench/white
target/bench/in_touch
# All servers make requests, and entries turn white; or all but one, and none does.
for run in "3 16 3" "6 256 6" "8 256 8" "3 16 2" "6 256 5" "8 256 7"; do
    # shellcheck disable=SC2086
    target/bench/record $run "target/bench/$(echo $run | tr ' ' _).run"
done
target/bench/burst target/bench/3_16_3.run target/bench/6_256_6.run target/bench/8_256_8.run
target/bench/burst target/bench/3_16_2.run target/bench/6_256_5.run target/bench/8_256_7.run
target/bench/register
target/bench/queries
target/bench/register_step
