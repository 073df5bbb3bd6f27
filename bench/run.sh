#!/usr/bin/env bash
# Times the built program, start included, over the example of a count: 200 runs, the mean in milliseconds.
# Build it first: (cd crates/step_main && rt run -- check data/program data/proof data/certs)
set -eu
cd "$(dirname "$0")/.."
program=$PWD/crates/step_main/out/step_main
runs=200
cd examples/count
begin=$(date +%s%N)
for _ in $(seq $runs); do
    "$program" check program proof certs > /dev/null
done
end=$(date +%s%N)
awk -v span=$((end - begin)) -v runs=$runs 'BEGIN { printf "%.2f ms a run, over %d runs\n", span / runs / 1000000, runs }'
